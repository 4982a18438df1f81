//! Calls of the check and of the two engines that prepare.

use super::some_numbers;
use super::why::why_call;
use crate::call::Call;
use crate::policies;
use crate::random::Random;
use crate::reading::READINGS;
use crate::subject::{filler, lent_length, some_reading, Subject};

/// A table on which prepare may take more steps than this is not given to it,
/// so that no single call takes minutes.
const MOST_PREPARE_STEPS: usize = 300_000_000;

/// Both engines on policies that are hard on one of them.
pub fn around_engines(random: &mut Random) -> Vec<Call> {
    let mut made = Vec::new();
    for _ in 0..3 {
        let policy = policies::adversarial(random);
        let subject = Subject::new(policy, random.pick(&READINGS));
        made.extend(prepare_calls(random, &subject));
        made.push(why_call(random, &subject));
        made.push(why_call(random, &subject));
    }
    made
}

/// One call of each engine, unless they may take too long.
pub fn prepare_calls(random: &mut Random, subject: &Subject) -> Vec<Call> {
    match subject.prepare_steps() {
        0..=MOST_PREPARE_STEPS => vec![
            prepare_call(random, subject),
            prepare_fast_call(random, subject),
        ],
        _ => vec![],
    }
}

/// How many marks both engines need.
pub fn check_call(subject: &Subject) -> Call {
    Call::Check {
        file: subject.file.clone(),
    }
}

fn prepare_call(random: &mut Random, subject: &Subject) -> Call {
    let length = lent_length(random, subject.states());
    Call::Prepare {
        reading: some_reading(random, subject),
        file: subject.file.clone(),
        marks: filler(random, length),
    }
}

/// The work slices hold anything before.
pub fn prepare_fast_call(random: &mut Random, subject: &Subject) -> Call {
    let states = subject.states();
    let length = lent_length(random, states);
    let odd = random.below(12) as usize;
    let work = [0, 1, 2, 3, 4].map(|slice| {
        let entries = match odd == slice {
            true => random.pick(&[states - 1, states / 2, 0]),
            false => states + random.pick(&[0, 0, 1, 7]),
        };
        some_numbers(random, entries)
    });
    Call::PrepareFast {
        reading: some_reading(random, subject),
        file: subject.file.clone(),
        marks: filler(random, length),
        work,
    }
}
