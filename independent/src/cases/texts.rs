//! Texts to be read, files to be written as texts, and places in them.

use crate::call::Call;
use crate::damage;
use crate::handwriting::{misspelt, penned};
use crate::policies::{self, Size};
use crate::policy::Policy;
use crate::random::Random;
use crate::subject::{filler, lent_length};
use crate::text::{self, text_of};

/// Texts around one policy: one that it may be written as, some with faults,
/// and its own.
pub fn around_text(random: &mut Random) -> Vec<Call> {
    let policy = some_policy(random);
    let mut made = vec![write_call(random, &policy)];
    let texts = [
        penned(random, &policy),
        misspelt(random, &policy),
        misspelt(random, &policy),
        misspelt(random, &policy),
    ];
    for text in texts {
        made.push(read_call(random, text.clone()));
        made.push(place_call(random, &policy, text));
    }
    made.push(read_call(random, text_of(&policy).into_bytes()));
    made
}

fn some_policy(random: &mut Random) -> Policy {
    match random.below(200) {
        0..=9 => policies::overfull(random),
        10..=11 => policies::of_size(random, Size::Full),
        12..=29 => policies::of_size(random, Size::Medium),
        30..=79 => policies::of_size(random, Size::Small),
        _ => policies::of_size(random, Size::Tiny),
    }
}

fn read_call(random: &mut Random, text: Vec<u8>) -> Call {
    let needed = text::read_policy(&text).map_or(20, |read| read.policy.encode().len());
    let length = lent_length(random, needed);
    Call::TextRead {
        text,
        file: filler(random, length),
    }
}

fn write_call(random: &mut Random, policy: &Policy) -> Call {
    let file = match random.percent(30) {
        true => damage::damaged(random, policy),
        false => policy.encode(),
    };
    let length = lent_length(random, text_of(policy).len());
    Call::TextWrite {
        file,
        text: filler(random, length),
    }
}

fn place_call(random: &mut Random, policy: &Policy, text: Vec<u8>) -> Call {
    let kind = random.below(4);
    let count = match kind {
        0 => policy.rules.len(),
        1 => policy.inputs.len() + policy.outputs.len(),
        2 => policy.ceilings.len(),
        _ => policy.locations(),
    };
    let number = match random.below(10) {
        0 => count as u32,
        1 => random.pick(&[4, 8, 64, 255, 256, 257, 65_536, 1 << 31, u32::MAX]),
        _ => random.between(0, count) as u32,
    };
    match kind {
        0 => Call::TextLineOfRule { text, number },
        1 => Call::TextNameOfSignal { text, number },
        2 => Call::TextNameOfClock { text, number },
        _ => Call::TextNameOfLocation { text, number },
    }
}
