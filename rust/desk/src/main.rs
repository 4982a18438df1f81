//! The program `groovepawn`: policies checked, joined, cleaned, run, explained and
//! drawn. What a policy permits, releases and refuses, and why, the library decides;
//! this program shows its answers and carries bytes to and fro.

#![forbid(unsafe_code)]

mod asks;
mod commands;
mod events;
mod fault;
mod help;
mod hints;
mod limits;
mod locate;
mod man;
mod names;
mod out;
mod pages;
mod policies;
mod progress;
// Random policies for the tests, of which some functions serve other tests.
#[cfg(test)]
#[allow(dead_code)]
#[path = "../tests/common/random.rs"]
mod random;
mod runner;
mod signals;
mod texts;
mod words;

use std::env;
use std::ffi::OsString;
use std::process::ExitCode;

fn main() -> ExitCode {
    let words: Vec<OsString> = env::args_os().skip(1).collect();
    match commands::obey(&words) {
        Ok(()) => ExitCode::SUCCESS,
        Err(fault) => {
            fault.tell();
            ExitCode::from(fault.status())
        }
    }
}
