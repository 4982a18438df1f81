//! The work of the library as a plain program: safe Rust without proofs, by
//! the same method. It checks the file anew at each entry, reads the rules
//! where they stand in the file, and uses no memory but what it is lent.

#![forbid(unsafe_code)]

mod check;
mod enforcer;
mod join;
pub mod looks;
mod policy;
mod prepare;
mod reached;
mod reading;
// The scope document's numbers, some of which no function here gives.
#[allow(dead_code)]
#[path = "../../independent/src/refusal.rs"]
mod refusal;
mod rule;
mod sets;
mod state;
mod texts;
mod waves;

#[cfg(test)]
mod tests;

pub use enforcer::{input, output, run, RunEnd};
pub use join::join;
pub use prepare::{prepare, Prepared};
pub use refusal::Refusal;
pub use texts::{text_read, text_write};
pub use waves::{wave_read, wave_write};
