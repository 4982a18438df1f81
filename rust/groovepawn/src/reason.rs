//! Why a half of an event was edited.

use crate::answer::field;
use crate::call::{self, WhyWork};
use crate::policy::Policy;

/// Why a half was edited.
#[derive(Clone, Copy, Debug, PartialEq, Eq)]
pub enum Reason {
    /// The rule of this number, counted from 0 in the file, forbids it.
    Rule(usize),
    /// No rule allows it.
    NoRule,
    /// After it the stream could have gone on for at most so many more ticks.
    TicksLeft(u32),
    /// After it the stream could have gone on for ever, with at most so many later
    /// events ending at rest.
    RestsLeft(u32),
}

/// The reasons for both halves of an event, each where it was edited.
///
/// An input is judged over all outputs: rests before ticks, each with the greatest
/// count; a rule, or that there is none, only where every output is a violation at
/// once, and then for the output 0.
#[derive(Clone, Copy, Debug, PartialEq, Eq, Default)]
pub struct Reasons {
    /// Why the input was edited.
    pub input: Option<Reason>,
    /// Why the output was, with the input that was passed on.
    pub output: Option<Reason>,
}

impl Reasons {
    pub(crate) fn of_answer(answer: u64) -> Reasons {
        Reasons {
            input: Reason::of(field(answer, 8, 8), field(answer, 16, 16)),
            output: Reason::of(field(answer, 32, 8), answer >> 40),
        }
    }

    /// Whether a half was edited.
    pub fn edited(self) -> bool {
        self.input.is_some() || self.output.is_some()
    }
}

impl Reason {
    fn of(kind: u64, number: u64) -> Option<Reason> {
        match kind {
            0 => None,
            1 => Some(Reason::Rule(number as usize)),
            2 => Some(Reason::NoRule),
            3 => Some(Reason::TicksLeft(number as u32)),
            _ => Some(Reason::RestsLeft(number as u32)),
        }
    }
}

/// The room that [`Station::why_run`](crate::Station::why_run) works in: made once
/// for a policy, and used again for each piece of a record.
pub struct WhyRoom {
    pub(crate) reasons: Vec<u64>,
    pub(crate) work: WhyWork,
}

impl WhyRoom {
    /// Room for the states of a policy and for so many events at once.
    pub fn new(policy: &Policy, events: usize) -> WhyRoom {
        let states = policy.states();
        let work = WhyWork {
            ticks: vec![0; states],
            rests: vec![0; states],
            prepared: vec![0; states],
            work: call::work(states),
        };
        WhyRoom {
            reasons: vec![0; events],
            work,
        }
    }

    pub(crate) fn make_place_for(&mut self, events: usize) {
        if self.reasons.len() < events {
            self.reasons.resize(events, 0);
        }
    }
}
