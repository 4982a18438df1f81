//! The commands, each in a module of its name.

pub mod check;
pub mod clean;
pub mod compile;
pub mod draw;
pub mod firmware;
pub mod join;
pub mod live;
pub mod run;
pub mod show;
pub mod ticks;
pub mod wave;
pub mod why;

use std::ffi::OsString;

use crate::fault::Fault;
use crate::help::{Command, COMMANDS};
use crate::man;
use crate::out::Out;
use crate::pages;
use crate::words::Words;

/// Does what the words of the call say.
pub fn obey(words: &[OsString]) -> Result<(), Fault> {
    let Some((first, rest)) = words.split_first() else {
        return Err(Fault::Wrong(format!("no command\n\n{}", pages::help())));
    };
    match &*first.to_string_lossy() {
        "-h" | "--help" => print(&pages::help()),
        "--version" => print(&pages::version()),
        // For whoever installs the program.
        "--man" => print(&man::page()),
        "help" => help_on(rest),
        name => match command(name) {
            Some(command) if asks_for_help(rest) => print(&pages::help_on(command)),
            Some(command) => (command.obey)(&Words::parse(command, rest)?),
            None => Err(no_command(name)),
        },
    }
}

fn help_on(words: &[OsString]) -> Result<(), Fault> {
    let Some(name) = words.first() else {
        return print(&pages::help());
    };
    let name = name.to_string_lossy();
    match command(&name) {
        Some(command) => print(&pages::help_on(command)),
        None => Err(no_command(&name)),
    }
}

fn command(name: &str) -> Option<&'static Command> {
    COMMANDS.iter().find(|command| command.name == name)
}

fn no_command(name: &str) -> Fault {
    let names: Vec<&str> = COMMANDS.iter().map(|command| command.name).collect();
    Fault::Wrong(format!("no command {name}; there are {}", names.join(", ")))
}

/// Words behind `--` are files, whatever they are called.
fn asks_for_help(words: &[OsString]) -> bool {
    words
        .iter()
        .take_while(|&word| word != "--")
        .any(|word| word == "-h" || word == "--help")
}

fn print(text: &str) -> Result<(), Fault> {
    let mut out = Out::standard();
    out.put(text.as_bytes())?;
    out.finish()
}
