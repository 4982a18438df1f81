//! Random inputs and words for the programs.

use crate::damage;
use crate::policies::{self, Size};
use crate::policy::Policy;
use crate::random::Random;
use crate::subject::some_events;
use crate::waves::MOST_EVENTS;

/// Input `number` of `seed`; always the same.
pub fn some_input(seed: u64, number: u64) -> Vec<u8> {
    let mut random = Random::for_group(seed, number);
    let random = &mut random;
    let policy = some_policy(random);
    let file = match random.below(10) {
        0 => damage::damaged(random, &policy),
        _ => policy.encode(),
    };
    let events = events_of(random, &policy);
    let mut input = Vec::new();
    put_counted(random, &mut input, &file);
    put_counted(random, &mut input, &events);
    match random.below(20) {
        0 => input.truncate(random.between(0, input.len())),
        1 => input.push(random.byte()),
        _ => {}
    }
    input
}

pub fn some_policy(random: &mut Random) -> Policy {
    match random.below(100) {
        0 => policies::overfull(random),
        1 => policies::of_size(random, Size::Medium),
        2..=21 => policies::trap(random),
        _ => {
            let size = random.pick(&[Size::Tiny, Size::Small]);
            policies::of_size(random, size)
        }
    }
}

/// Now and then as many as there can be, or one more.
fn events_of(random: &mut Random, policy: &Policy) -> Vec<u8> {
    let few = some_events(random, policy);
    match random.below(60) {
        0 if !few.is_empty() => {
            let many = MOST_EVENTS + usize::from(random.percent(20));
            few.iter().cycle().copied().take(many).collect()
        }
        _ => few,
    }
}

/// The count is now and then wrong.
fn put_counted(random: &mut Random, input: &mut Vec<u8>, bytes: &[u8]) {
    let count = match random.below(30) {
        0 => random.next() as u16,
        1 => bytes.len() as u16 + 1,
        _ => bytes.len() as u16,
    };
    input.extend(count.to_be_bytes());
    input.extend(bytes);
}

/// No word in half of the cases, and else one that names a reading; now and then
/// others.
pub fn some_words(random: &mut Random) -> Vec<&'static str> {
    match random.below(20) {
        0..=9 => vec![],
        10..=13 => vec!["1"],
        14..=18 => vec!["2"],
        _ => random.pick(&WRONG_WORDS).to_vec(),
    }
}

pub const WRONG_WORDS: [&[&str]; 9] = [
    &["0"],
    &["3"],
    &["9"],
    &[""],
    &["12"],
    &[" 1"],
    &["one"],
    &["a word that is longer than the program keeps"],
    &["1", "2"],
];
