//! A policy, and what can be lent in calls about it: marks, states, events
//! and slices to write to, good and bad ones.

use crate::graph::{Graph, Liveness};
use crate::moment::{Moment, Numbering, STATE_LENGTH};
use crate::policy::Policy;
use crate::random::Random;
use crate::reading::Reading;

/// A valid policy, read in one way, with everything needed to make sensible
/// calls about it.
pub struct Subject {
    pub policy: Policy,
    pub reading: Reading,
    pub file: Vec<u8>,
    numbering: Numbering,
    graph: Graph,
    pub liveness: Liveness,
}

impl Subject {
    pub fn new(policy: Policy, reading: Reading) -> Subject {
        let graph = Graph::new(&policy, reading);
        Subject {
            file: policy.encode(),
            numbering: Numbering::new(&policy),
            liveness: graph.liveness(),
            graph,
            reading,
            policy,
        }
    }

    pub fn states(&self) -> usize {
        self.numbering.states()
    }

    fn number_of(&self, state: &[u16]) -> Option<usize> {
        let moment = self.numbering.read(&self.policy, state).ok()?;
        Some(self.numbering.number(&moment))
    }

    fn state(&self, number: usize) -> Vec<u16> {
        let moment = self.numbering.moment(number);
        self.numbering.stopped(&moment).to_vec()
    }

    /// What prepare takes if it is made as passes over all states, each of
    /// which tries every event against every rule.
    pub fn prepare_steps(&self) -> usize {
        let events = 1 << (self.policy.inputs.len() + self.policy.outputs.len());
        let per_location = 1 + self.policy.rules.len() / self.policy.locations();
        (self.liveness.rounds + 1) * self.states() * events * per_location
    }
}

/// Mostly the reading of the subject, so that its marks are those of the call;
/// now and then the other one, or a number that is none.
pub fn some_reading(random: &mut Random, subject: &Subject) -> u8 {
    match random.below(100) {
        0..=4 => no_reading(random),
        5..=14 => subject.reading.other().number(),
        _ => subject.reading.number(),
    }
}

/// Any number but 1 and 2.
fn no_reading(random: &mut Random) -> u8 {
    match random.below(4) {
        0 => 0,
        1 => 3,
        2 => 255,
        _ => random.between(3, 255) as u8,
    }
}

/// The length of a slice that needs `needed` bytes: exact, longer or shorter.
pub fn lent_length(random: &mut Random, needed: usize) -> usize {
    match random.below(10) {
        0..=4 => needed,
        5..=7 => needed + random.between(1, 30),
        8 => needed.saturating_sub(1),
        _ => random.between(0, needed),
    }
}

/// What a slice holds before a call, so that every byte written, and every
/// byte not written, shows.
pub fn filler(random: &mut Random, length: usize) -> Vec<u8> {
    match random.below(3) {
        0 => vec![0xEE; length],
        1 => vec![random.byte(); length],
        _ => random.bytes(length),
    }
}

pub fn some_value(random: &mut Random, mask: u8) -> u8 {
    match random.below(20) {
        0 => random.byte(),
        1 => mask.wrapping_add(1),
        _ => random.byte() & mask,
    }
}

pub fn some_events(random: &mut Random, policy: &Policy) -> Vec<u8> {
    let length = match random.below(2_000) {
        0 => random.between(65_530, 70_000),
        1..=60 => random.between(0, 1_200),
        _ => random.between(0, 30),
    };
    let mask = policy.event_mask();
    let steady = random.byte() & mask;
    let mut events: Vec<u8> = match random.below(4) {
        0 => vec![steady; length],
        1 => vec![0; length],
        _ => (0..length).map(|_| random.byte() & mask).collect(),
    };
    if length > 0 && random.percent(8) {
        let anywhere = random.between(0, length - 1);
        let place = random.pick(&[0, length - 1, anywhere]);
        events[place] = match random.percent(50) {
            true => random.byte(),
            false => 1 << random.below(8),
        };
    }
    events
}

pub fn marks_and_state(random: &mut Random, subject: &Subject) -> (Vec<u8>, Vec<u16>) {
    let mut marks = some_marks(random, subject);
    let state = some_state(random, subject);
    if let Some(number) = subject.number_of(&state) {
        // A state with another mark is refused at once, so most have mark 1.
        if number < marks.len() && random.percent(75) {
            marks[number] = 1;
        }
    }
    (marks, state)
}

fn some_marks(random: &mut Random, subject: &Subject) -> Vec<u8> {
    let states = subject.states();
    let mut marks = subject.liveness.marks();
    match random.below(100) {
        0..=39 => {}
        40..=54 => {
            let more = random.between(1, 20);
            marks.extend(random.bytes(more));
        }
        55..=69 => {
            for _ in 0..1 + states / 8 {
                let place = random.between(0, states - 1);
                marks[place] = random.pick(&[0, 1, 2, 255]);
            }
        }
        70..=82 => marks = random.bytes(states).iter().map(|byte| byte & 1).collect(),
        83..=88 => marks = random.bytes(states).iter().map(|byte| byte % 4).collect(),
        89..=93 => marks = vec![1; states],
        94..=95 => marks = vec![0; states],
        96..=97 => marks.truncate(states - 1),
        _ => marks.truncate(random.between(0, states)),
    }
    marks
}

pub fn some_state(random: &mut Random, subject: &Subject) -> Vec<u16> {
    match random.below(100) {
        0..=19 => subject.state(subject.numbering.number(&Moment::START)),
        20..=49 => subject.state(mostly_live(random, subject, reached)),
        50..=87 => subject.state(mostly_live(random, subject, anywhere)),
        88..=96 => out_of_range(random, subject),
        _ => {
            let length = random.pick(&[0, 1, STATE_LENGTH - 1, STATE_LENGTH + 1, 8]);
            vec![0; length]
        }
    }
}

/// A state that `draw` gives; one that is not live is mostly drawn again,
/// since little can be asked of it.
fn mostly_live(
    random: &mut Random,
    subject: &Subject,
    draw: fn(&mut Random, &Subject) -> usize,
) -> usize {
    let mut number = draw(random, subject);
    for _ in 0..3 {
        if !subject.liveness.live[number] && random.percent(80) {
            number = draw(random, subject);
        }
    }
    number
}

fn anywhere(random: &mut Random, subject: &Subject) -> usize {
    random.between(0, subject.states() - 1)
}

/// A state some permitted stream reaches.
fn reached(random: &mut Random, subject: &Subject) -> usize {
    let mut number = 0;
    for _ in 0..random.between(0, 25) {
        match subject.graph.successors(number) {
            [] => break,
            ways => number = random.pick(ways) as usize,
        }
    }
    number
}

/// A state with one number that it may not have.
fn out_of_range(random: &mut Random, subject: &Subject) -> Vec<u16> {
    let mut state = subject.state(random.between(0, subject.states() - 1));
    let place = random.between(0, STATE_LENGTH - 1);
    let first_wrong = match place {
        0 => subject.policy.locations() as u16,
        clock => subject.policy.ceilings.get(clock - 1).map_or(1, |c| c + 1),
    };
    // 256 and more also catch a location cut down to one byte.
    state[place] = random
        .pick(&[first_wrong, first_wrong + 1, 255, 256, 65_535])
        .max(first_wrong);
    state
}
