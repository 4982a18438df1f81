//! A policy that can be run.

use crate::basis::Basis;
use crate::engine::{refusal_in, Engine, Plain, State, START};
use crate::file::{Policy, MOST_STATES};
use crate::work::FILLER;

/// A policy with its marks, and the reading that they were made under.
pub struct Ready {
    pub reading: u8,
    pub file: Vec<u8>,
    pub marks: Vec<u8>,
}

impl Ready {
    /// The policy has a live start. The marks are always those of the plain
    /// program.
    pub fn new(reading: u8, policy: &Policy) -> Ready {
        let file = policy.encode();
        let mut marks = vec![FILLER; MOST_STATES];
        let answer = Plain.prepare(reading, &file, &mut marks);
        assert_eq!(refusal_in(answer), 0, "a measured policy is refused");
        Ready {
            reading,
            file,
            marks,
        }
    }

    pub fn basis(&self) -> Basis<'_> {
        Basis::new(self.reading, &self.file, &self.marks)
    }

    /// What the stream is corrected to, from the start.
    pub fn corrected(&self, events: &[u8]) -> Vec<u8> {
        let mut released = vec![FILLER; events.len()];
        let mut state = START;
        let answer = Plain.run(self.basis(), &mut state, events, &mut released);
        assert_eq!(refusal_in(answer), 0, "a measured stream is refused");
        released
    }

    /// What one event is corrected to, and the state after it.
    pub fn released(&self, state: &mut State, event: u8) -> u8 {
        let mut released = [FILLER];
        let answer = Plain.run(self.basis(), state, &[event], &mut released);
        assert_eq!(refusal_in(answer), 0, "a measured event is refused");
        released[0]
    }

    /// The state before each event of a stream that needs no correction.
    pub fn states_along(&self, stream: &[u8]) -> Vec<State> {
        let mut state = START;
        let mut states = Vec::new();
        for &event in stream {
            states.push(state);
            let (x, y) = (event & 15, event >> 4);
            Plain.output(self.basis(), &mut state, x, y);
        }
        states
    }
}
