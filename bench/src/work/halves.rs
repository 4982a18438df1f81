//! The halves, called at moments of a run.

use super::{Outcome, Work, FILLER};
use crate::engine::{Engine, State, START};
use crate::ready::Ready;

/// A state that occurs in a run, and the event read there.
struct Moment {
    state: State,
    x: u8,
    y: u8,
}

/// The moments of a run that reads `events`.
fn moments(ready: &Ready, events: &[u8]) -> Vec<Moment> {
    let states = ready.states_along(&ready.corrected(events));
    let pairs = states.into_iter().zip(events);
    pairs
        .map(|(state, event)| Moment {
            state,
            x: event & 15,
            y: event >> 4,
        })
        .collect()
}

#[derive(Clone, Copy)]
enum Half {
    Input,
    Output,
}

/// Calls of one half at moments of a run. A unit is a call.
pub struct HalfWork {
    half: Half,
    ready: Ready,
    moments: Vec<Moment>,
    answers: Vec<u64>,
    states: Vec<State>,
}

impl HalfWork {
    pub fn input(ready: Ready, events: &[u8]) -> HalfWork {
        let moments = moments(&ready, events);
        HalfWork::new(Half::Input, ready, moments)
    }

    /// Each call has the input that the input half passes on there.
    pub fn output(ready: Ready, events: &[u8]) -> HalfWork {
        let passed_on = ready.corrected(events);
        let mut moments = moments(&ready, events);
        for (moment, event) in moments.iter_mut().zip(passed_on) {
            moment.x = event & 15;
        }
        HalfWork::new(Half::Output, ready, moments)
    }

    fn new(half: Half, ready: Ready, moments: Vec<Moment>) -> HalfWork {
        HalfWork {
            half,
            ready,
            answers: vec![0; moments.len()],
            states: vec![START; moments.len()],
            moments,
        }
    }

    /// Calls at the first moments only.
    pub fn call_first(&mut self, engine: &dyn Engine, count: usize) {
        let basis = self.ready.basis();
        let lent = self.answers.iter_mut().zip(&mut self.states);
        for (moment, (answer, state)) in self.moments[..count].iter().zip(lent) {
            *state = moment.state;
            *answer = match self.half {
                Half::Input => engine.input(basis, state, moment.x),
                Half::Output => engine.output(basis, state, moment.x, moment.y),
            };
        }
    }
}

impl Work for HalfWork {
    fn units(&self) -> usize {
        self.moments.len()
    }

    fn pass(&mut self, engine: &dyn Engine) {
        self.call_first(engine, self.moments.len());
    }

    fn spoil(&mut self) {
        self.answers.fill(FILLER.into());
        self.states.fill([FILLER.into(); START.len()]);
    }

    fn outcome(&self) -> Outcome {
        Outcome {
            answers: self.answers.clone(),
            bytes: vec![],
            states: self.states.clone(),
        }
    }
}
