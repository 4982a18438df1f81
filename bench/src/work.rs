//! Pieces of work: inputs made once, and buffers that both sides write to in
//! turn.

mod call;
mod clean;
mod halves;
mod run;

use crate::engine::{Engine, State};

pub use call::{text_of, CallWork};
pub use clean::CleanWork;
pub use halves::HalfWork;
pub use run::RunWork;

/// What no successful call leaves behind, so that a byte not written shows.
pub const FILLER: u8 = 0xEE;

/// Something both sides can do over and over with the same outcome.
pub trait Work {
    /// How many ticks or calls one pass is.
    fn units(&self) -> usize;

    /// Does the work once, from the same inputs each time.
    fn pass(&mut self, engine: &dyn Engine);

    /// Spoils all that a pass writes.
    fn spoil(&mut self);

    /// What the last pass answered and wrote.
    fn outcome(&self) -> Outcome;
}

#[derive(Clone, Debug, PartialEq, Eq)]
pub struct Outcome {
    pub answers: Vec<u64>,
    pub bytes: Vec<u8>,
    pub states: Vec<State>,
}

/// What one engine makes of the work.
pub fn outcome_of(work: &mut dyn Work, engine: &dyn Engine) -> Outcome {
    work.spoil();
    work.pass(engine);
    work.outcome()
}
