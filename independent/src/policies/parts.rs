//! The parts of a random policy.

use crate::policy::*;
use crate::random::Random;
use crate::rules;

pub fn with_rules(
    random: &mut Random,
    inputs: Vec<u8>,
    outputs: Vec<u8>,
    ceilings: Vec<u16>,
    locations: usize,
) -> Policy {
    let mut policy = Policy {
        inputs,
        outputs,
        ceilings,
        must_leave: some_must_leave(random, locations),
        rules: Vec::new(),
    };
    policy.rules = rules::rules_for(random, &policy);
    policy
}

/// Which of so many locations must be left. In many policies all may rest;
/// where all must be left nothing is live.
pub fn some_must_leave(random: &mut Random, locations: usize) -> Vec<bool> {
    let one = random.between(0, locations - 1);
    let kind = random.below(100);
    let must_be_left = |location: usize| match kind {
        0..=44 => false,
        45..=54 => location == one,
        55..=66 => location != one,
        67..=68 => true,
        69..=79 => random.percent(30),
        _ => random.percent(60),
    };
    (0..locations).map(must_be_left).collect()
}

pub fn some_locations(random: &mut Random, most_states: usize) -> usize {
    match random.below(10) {
        0..=1 => 1,
        2..=6 => random.between(1, 5),
        7..=8 => random.between(1, most_states.min(20)),
        _ => random.between(1, most_states.min(MAX_LOCATIONS)),
    }
}

/// Up to `clocks` ceilings with at most `room` combinations of clock values.
pub fn some_ceilings(random: &mut Random, clocks: usize, mut room: usize) -> Vec<u16> {
    let mut ceilings = Vec::new();
    for _ in 0..clocks {
        let most = (room - 1).min(usize::from(MAX_CEILING));
        if most == 0 {
            break;
        }
        let ceiling = match random.below(10) {
            0..=1 => 1,
            2..=3 => most,
            4..=7 => random.between(1, most.min(9)),
            _ => random.between(1, most),
        };
        ceilings.push(ceiling as u16);
        room /= ceiling + 1;
    }
    random.shuffle(&mut ceilings);
    ceilings
}

/// Distinct capital letters for inputs and outputs. Mostly few, since each
/// signal doubles the events.
pub fn some_tags(random: &mut Random) -> (Vec<u8>, Vec<u8>) {
    let mut letters: Vec<u8> = (b'A'..=b'Z').collect();
    random.shuffle(&mut letters);
    let mut count = || match random.below(10) {
        0 => 0,
        1..=6 => random.between(1, 2),
        _ => random.between(3, MAX_SIGNALS),
    };
    let inputs = letters.split_off(letters.len() - count());
    let outputs = letters.split_off(letters.len() - count());
    (inputs, outputs)
}
