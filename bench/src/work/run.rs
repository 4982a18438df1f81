//! Many ticks in one call.

use super::{Outcome, Work, FILLER};
use crate::engine::{Engine, State, START};
use crate::ready::Ready;

/// One call of run over a whole stream. A unit is a tick.
pub struct RunWork {
    ready: Ready,
    events: Vec<u8>,
    released: Vec<u8>,
    state: State,
    answer: u64,
}

impl RunWork {
    pub fn new(ready: Ready, events: Vec<u8>) -> RunWork {
        RunWork {
            released: vec![FILLER; events.len()],
            ready,
            events,
            state: START,
            answer: 0,
        }
    }

    /// Runs over the first events only.
    pub fn run_first(&mut self, engine: &dyn Engine, count: usize) -> u64 {
        self.state = START;
        self.answer = engine.run(
            self.ready.basis(),
            &mut self.state,
            &self.events[..count],
            &mut self.released[..count],
        );
        self.answer
    }
}

impl Work for RunWork {
    fn units(&self) -> usize {
        self.events.len()
    }

    fn pass(&mut self, engine: &dyn Engine) {
        self.run_first(engine, self.events.len());
    }

    fn spoil(&mut self) {
        self.released.fill(FILLER);
    }

    fn outcome(&self) -> Outcome {
        Outcome {
            answers: vec![self.answer],
            bytes: self.released.clone(),
            states: vec![self.state],
        }
    }
}
