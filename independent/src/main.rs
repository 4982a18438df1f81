//! An independent reading of the policy paper, to check the library against.

mod basis;
mod bays;
mod call;
mod cases;
mod clean;
mod command;
mod compare;
mod damage;
mod enforce;
mod engine;
mod events;
mod graph;
#[cfg(feature = "library")]
#[path = "../../include/groovepawn.rs"]
mod groovepawn;
mod handwriting;
mod hex;
mod index;
mod join;
mod laws;
#[cfg(feature = "library")]
mod library;
mod meter;
mod moment;
mod parse;
mod policies;
mod policy;
mod program;
mod random;
mod reading;
mod refusal;
mod rules;
mod samples;
mod selfcheck;
mod spoil;
mod subject;
mod text;
mod ticks;
mod vectors;
mod waves;
mod why;
mod written;
mod wrong;

use compare::Tally;
use engine::{Engine, Model};
use program::Program;
use std::io::{self, Read, Write};
use std::process::ExitCode;
use std::time::{Duration, Instant};

const USAGE: &str = "usage:
  independent selfcheck
  independent compare SECONDS SEED [trace]   (needs the feature `library`)
  independent rehearse SECONDS SEED
  independent texts COUNT SEED   (of the library, with the feature `library`)
  independent program enforce|wave|why|clean|compile|show SECONDS SEED WORD...   (the words run it)
  independent prints enforce|wave|why [READING] < INPUT
  independent show SEED GROUP
  independent vectors COUNT SEED > FILE
  independent wrong EACH SEED > FILE
  independent replay < FILE";

fn main() -> ExitCode {
    command::done(perform)
}

fn perform(words: &[&str]) -> Result<(), String> {
    match *words {
        ["selfcheck"] => selfcheck_all(),
        ["compare", seconds, seed] => compare_library(number(seconds)?, number(seed)?, false),
        ["compare", seconds, seed, "trace"] => {
            compare_library(number(seconds)?, number(seed)?, true)
        }
        ["rehearse", seconds, seed] => {
            compare_engine(&mut Model, number(seconds)?, number(seed)?, false)
        }
        ["texts", count, seed] => compare_texts(number(count)?, number(seed)?),
        ["program", name, seconds, seed, ref words @ ..] => {
            compare_program(name, words, number(seconds)?, number(seed)?)
        }
        ["prints", name, ref words @ ..] => print_as(program(name)?, words),
        ["show", seed, group] => show(number(seed)?, number(group)?),
        ["vectors", count, seed] => {
            write_file(&vectors::vectors(number(count)? as usize, number(seed)?))
        }
        ["wrong", each, seed] => write_file(&wrong::wrong(number(each)? as usize, number(seed)?)),
        ["replay"] => replay_all(),
        _ => Err(USAGE.to_string()),
    }
}

fn number(word: &str) -> Result<u64, String> {
    word.parse()
        .map_err(|_| format!("not a number: {word}\n{USAGE}"))
}

fn program(name: &str) -> Result<Program, String> {
    Program::named(name).ok_or_else(|| format!("not a program: {name}\n{USAGE}"))
}

fn selfcheck_all() -> Result<(), String> {
    selfcheck_engine("model", &mut Model)?;
    #[cfg(feature = "library")]
    selfcheck_engine("library", &mut library::Library::default())?;
    Ok(())
}

fn selfcheck_engine(name: &str, engine: &mut dyn Engine) -> Result<(), String> {
    let (count, failures) = selfcheck::selfcheck(engine);
    println!(
        "{name}: {count} calls written by hand, {} otherwise",
        failures.len()
    );
    match failures.is_empty() {
        true => Ok(()),
        false => Err(failures.join("\n")),
    }
}

#[cfg(feature = "library")]
fn compare_library(seconds: u64, seed: u64, trace: bool) -> Result<(), String> {
    compare_engine(&mut library::Library::default(), seconds, seed, trace)
}

#[cfg(not(feature = "library"))]
fn compare_library(_: u64, _: u64, _: bool) -> Result<(), String> {
    Err("compare needs the library: build with `--features library`".to_string())
}

fn compare_engine(
    engine: &mut dyn Engine,
    seconds: u64,
    seed: u64,
    trace: bool,
) -> Result<(), String> {
    let began = Instant::now();
    let goes_on = |_| began.elapsed() < Duration::from_secs(seconds);
    let mut tally = Tally::default();
    let result = compare::compare(engine, seed, goes_on, trace, &mut tally);
    print!("{tally}");
    let rate = tally.calls as f64 / began.elapsed().as_secs_f64();
    println!("calls a second {rate:.0}");
    match result {
        Ok(()) => {
            println!("no difference");
            Ok(())
        }
        Err(difference) => Err(format!("difference: {difference}")),
    }
}

/// Of the library where there is one, and else of the model.
fn compare_texts(count: u64, seed: u64) -> Result<(), String> {
    #[cfg(feature = "library")]
    let engine = &mut library::Library::default();
    #[cfg(not(feature = "library"))]
    let engine = &mut Model;
    let mut tally = Tally::default();
    while tally.texts() < count {
        compare::compare_texts(engine, seed, tally.groups, false, &mut tally)?;
        tally.groups += 1;
    }
    print!("texts {}\n{}", tally.texts(), tally.answers());
    println!("no difference");
    Ok(())
}

fn compare_program(name: &str, words: &[&str], seconds: u64, seed: u64) -> Result<(), String> {
    let began = Instant::now();
    let goes_on = |_| began.elapsed() < Duration::from_secs(seconds);
    let (runs, refused) = match name {
        "clean" => program::folder::compare(&program::clean::TOPIC, words, seed, goes_on)?,
        "compile" => program::folder::compare(&program::texts::COMPILE, words, seed, goes_on)?,
        "show" => program::folder::compare(&program::texts::SHOW, words, seed, goes_on)?,
        _ => program::compare(program(name)?, words, seed, goes_on)?,
    };
    println!("{runs} runs, of which refused {refused}; no difference");
    Ok(())
}

fn show(seed: u64, group: u64) -> Result<(), String> {
    for (title, calls) in [
        ("call", cases::group(seed, group)),
        ("texts, call", cases::texts(seed, group)),
    ] {
        for (place, call) in calls.iter().enumerate() {
            print!("{title} {place}\n{call}model:\n{}", call.make(&mut Model));
        }
    }
    println!("laws\n{}", laws::case(seed, group).describe());
    Ok(())
}

fn write_file(file: &[u8]) -> Result<(), String> {
    let written = io::stdout().write_all(file);
    written.map_err(|error| format!("standard output: {error}"))?;
    eprintln!("{} bytes", file.len());
    Ok(())
}

fn print_as(program: Program, words: &[&str]) -> Result<(), String> {
    print!("{}", program.printed(words, &standard_input()?));
    Ok(())
}

fn standard_input() -> Result<Vec<u8>, String> {
    let mut bytes = Vec::new();
    let read = io::stdin().read_to_end(&mut bytes);
    read.map_err(|error| format!("standard input: {error}"))?;
    Ok(bytes)
}

fn replay_all() -> Result<(), String> {
    let file = standard_input()?;
    println!(
        "model: {} records hold",
        vectors::replay(&file, &mut Model)?
    );
    #[cfg(feature = "library")]
    println!(
        "library: {} records hold",
        vectors::replay(&file, &mut library::Library::default())?
    );
    Ok(())
}
