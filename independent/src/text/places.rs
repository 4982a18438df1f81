//! Where in a text something stands.

use super::reader::{read_policy, ReadText};
use super::Failure;
use crate::refusal::Refusal;

/// What is looked for in a text, by its number in the file.
#[derive(Clone, Copy, Debug, PartialEq, Eq)]
pub enum Sought {
    LineOfRule,
    /// Inputs first; at 0 and of length 0 where it has its letter alone.
    NameOfSignal,
    NameOfClock,
    NameOfLocation,
}

/// The line of a rule, and 0; or the byte where a name begins, and its length.
pub fn place(sought: Sought, text: &[u8], number: u32) -> Result<(usize, usize), Failure> {
    let found = places(sought, &read_policy(text)?);
    let none = Failure::of_no_line(Refusal::NoneOfThisNumber);
    found.get(number as usize).copied().ok_or(none)
}

/// Those of all that there are.
fn places(sought: Sought, read: &ReadText) -> Vec<(usize, usize)> {
    let names = match sought {
        Sought::LineOfRule => return read.rule_lines.iter().map(|&line| (line, 0)).collect(),
        Sought::NameOfSignal => &read.signals,
        Sought::NameOfClock => &read.clocks,
        Sought::NameOfLocation => &read.locations,
    };
    names.iter().map(|name| (name.place, name.length)).collect()
}
