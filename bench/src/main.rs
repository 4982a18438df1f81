//! Measures the library against the plain program, or runs ticks or calls on
//! one side.

use bench::cases::{Preparation, PREPARED};
use bench::cleanings::{self, CLEANED};
use bench::engine::{Engine, Plain};
use bench::maker::Maker;
use bench::streams::{Stream, Wave, STREAMS, WAVES};
use bench::{
    cases, command, engines, indexes, instructions, measure, report, why_runs, whys, work,
};
use std::process::ExitCode;

fn main() -> ExitCode {
    command::done(perform)
}

fn perform(words: &[&str]) -> Result<(), String> {
    match *words {
        [] => measure_all(""),
        ["rows", beginning] => measure_all(beginning),
        ["engines"] => compare_engines(""),
        ["engines", policy] => compare_engines(policy),
        ["indexed"] => compare_indexed(),
        ["why"] => compare_why(""),
        ["why", policy] => compare_why(policy),
        ["why_run"] => compare_why_run(),
        ["instructions", side, ticks] => count(side, ticks, STREAMS[0].name, instructions::run),
        ["instructions", side, ticks, stream] => count(side, ticks, stream, instructions::run),
        ["instructions", side, calls, stream, "input"] => {
            count(side, calls, stream, instructions::input)
        }
        ["instructions", side, calls, stream, "output"] => {
            count(side, calls, stream, instructions::output)
        }
        ["instructions", side, calls, wave, "write"] => {
            count_wave(side, calls, wave, instructions::write)
        }
        ["instructions", side, calls, wave, "read"] => {
            count_wave(side, calls, wave, instructions::read)
        }
        ["instructions", side, calls, policy, "prepare"] => count_prepare(side, calls, policy),
        ["instructions", "library", calls, policy, "clean"] => count_clean(calls, policy),
        _ => Err(usage()),
    }
}

fn usage() -> String {
    let streams: Vec<&str> = STREAMS.iter().map(|stream| stream.name).collect();
    let waves: Vec<&str> = WAVES.iter().map(|wave| wave.name).collect();
    let policies = PREPARED.iter().chain(&CLEANED);
    let policies: Vec<&str> = policies.map(|policy| policy.name).collect();
    format!(
        "usage:\n  bench\n  bench rows BEGINNING\n  bench engines [POLICY]\n  bench indexed\n  bench why [POLICY]\n  bench why_run\n  bench instructions plain|library TICKS [STREAM]\n  \
         bench instructions plain|library CALLS STREAM input|output\n  \
         bench instructions plain|library CALLS WAVE write|read\n  \
         bench instructions plain|library CALLS POLICY prepare\n  \
         bench instructions library CALLS POLICY clean\n\
         streams: {}\nwaves: {}\npolicies: {}",
        streams.join("; "),
        waves.join("; "),
        policies.join("; ")
    )
}

#[cfg(feature = "library")]
fn second_side() -> (&'static str, &'static dyn Engine) {
    ("library", &bench::library::Library)
}

/// A check of the measuring itself: every ratio must come out near 1.
#[cfg(not(feature = "library"))]
fn second_side() -> (&'static str, &'static dyn Engine) {
    ("plain", &Plain)
}

/// On the policies whose names begin so.
fn compare_engines(policy: &str) -> Result<(), String> {
    println!("{}", engines::heading());
    for row in engines::rows(policy)? {
        println!("{row}");
    }
    Ok(())
}

/// The same for `why`, and the second engine alone.
fn compare_why(policy: &str) -> Result<(), String> {
    println!("{}", whys::heading());
    for row in whys::rows(policy)? {
        println!("{row}");
    }
    Ok(())
}

/// The halves with an index and without.
fn compare_indexed() -> Result<(), String> {
    println!("{}", indexes::heading());
    for row in indexes::rows()? {
        println!("{row}");
    }
    Ok(())
}

/// Reasons for a run, beside the run alone.
fn compare_why_run() -> Result<(), String> {
    println!("{}\n{}", why_runs::heading(), why_runs::row()?);
    Ok(())
}

/// The rows whose names begin so.
fn measure_all(beginning: &str) -> Result<(), String> {
    let (name, second) = second_side();
    if name == "plain" {
        println!("built without the library: the plain program against itself\n");
    }
    println!("{}", report::heading(name));
    let maker = Maker::new();
    let rows = cases::all().into_iter();
    for mut case in rows.filter(|case| case.name.starts_with(beginning)) {
        let mut sides: Vec<&dyn Engine> = vec![&Plain, second];
        if case.limit.is_some() {
            sides.push(&maker);
        }
        let work = case.work.as_mut();
        let plain = work::outcome_of(work, &Plain);
        if sides
            .iter()
            .any(|side| work::outcome_of(work, *side) != plain)
        {
            return Err(format!("{}: the sides answer differently", case.name));
        }
        let rounds = measure::measure(work, &sides);
        println!("{}", report::row(&case.name, &rounds, case.limit));
    }
    Ok(())
}

/// What is done on one side so many times at a stream.
type Counted = fn(&dyn Engine, &Stream, usize) -> Result<(), String>;

fn count(side: &str, times: &str, stream: &str, counted: Counted) -> Result<(), String> {
    let times = times.parse().map_err(|_| usage())?;
    let stream = Stream::named(stream).ok_or_else(usage)?;
    counted(engine(side)?, stream, times)
}

/// The same for a wave.
type CountedWave = fn(&dyn Engine, &Wave, usize) -> Result<(), String>;

fn count_wave(side: &str, calls: &str, wave: &str, counted: CountedWave) -> Result<(), String> {
    let calls = calls.parse().map_err(|_| usage())?;
    let wave = Wave::named(wave).ok_or_else(usage)?;
    counted(engine(side)?, wave, calls)
}

fn count_prepare(side: &str, calls: &str, policy: &str) -> Result<(), String> {
    let calls = calls.parse().map_err(|_| usage())?;
    let preparation = Preparation::named(policy).ok_or_else(usage)?;
    instructions::prepare(engine(side)?, preparation, calls)
}

fn count_clean(calls: &str, policy: &str) -> Result<(), String> {
    let calls = calls.parse().map_err(|_| usage())?;
    let preparation = Preparation::named(policy).ok_or_else(usage)?;
    let clean = cleanings::LIBRARY.ok_or(NO_LIBRARY)?;
    instructions::clean(clean, preparation, calls)
}

const NO_LIBRARY: &str = "build with `--features library`";

fn engine(side: &str) -> Result<&'static dyn Engine, String> {
    match (side, second_side()) {
        ("plain", _) => Ok(&Plain),
        ("library", ("library", library)) => Ok(library),
        ("library", _) => Err(NO_LIBRARY.to_string()),
        _ => Err(usage()),
    }
}
