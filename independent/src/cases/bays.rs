//! Lists of bays, and the halves of one bay.

use super::halves::Half;
use super::some_numbers;
use crate::bays::MOST_BAYS;
use crate::call::{call, Call};
use crate::moment::STATE_LENGTH;
use crate::random::Random;
use crate::subject::Subject;

pub fn bays_new_call(random: &mut Random) -> Call {
    let length = match random.below(10) {
        0..=5 => STATE_LENGTH * random.between(1, MOST_BAYS),
        6 => STATE_LENGTH * random.pick(&[0, MOST_BAYS + 1]),
        _ => random.between(0, STATE_LENGTH * (MOST_BAYS + 1)),
    };
    Call::BaysNew {
        states: some_numbers(random, length),
    }
}

/// A half of one bay. The states of the others are anything at all.
pub fn bay_call(random: &mut Random, subject: &Subject) -> Call {
    let Half { asked, state, y } = Half::some(random, subject, 50);
    let bays = random.between(1, MOST_BAYS);
    let own = random.between(0, bays - 1);
    let mut states = some_numbers(random, bays * STATE_LENGTH);
    // A state of another length makes a list of another length.
    states.splice(own * STATE_LENGTH..(own + 1) * STATE_LENGTH, state);
    let bay = match random.below(20) {
        0 => bays,
        1 => bays + random.between(1, 300),
        2 => own + (1 << random.between(8, 31)),
        3 => random.between(0, bays - 1),
        _ => own,
    } as u32;
    if random.percent(4) {
        states.truncate(random.between(0, states.len()));
    }
    match y {
        None => call!(BayInput, asked, states, bay),
        Some(y) => call!(BayOutput, asked, states, bay, y),
    }
}
