//! Calls that make a rule index or go by one.

use super::halves::Half;
use super::some_numbers;
use crate::call::{call, Call};
use crate::index::{self, INDEX_LENGTH};
use crate::policy::Policy;
use crate::random::Random;
use crate::subject::Subject;

pub fn index_call(random: &mut Random, subject: &Subject) -> Call {
    let length = match random.below(10) {
        0..=6 => INDEX_LENGTH,
        7 => INDEX_LENGTH + random.between(1, 8),
        8 => INDEX_LENGTH - 1,
        _ => random.between(0, INDEX_LENGTH),
    };
    Call::Index {
        file: subject.file.clone(),
        index: some_numbers(random, length),
    }
}

/// A half with an index, which is mostly that of the file.
pub fn indexed_call(random: &mut Random, subject: &Subject) -> Call {
    let index = some_index(random, &subject.policy);
    let Half { asked, state, y } = Half::some(random, subject, 50);
    match y {
        None => call!(InputIndexed, asked, state, index),
        Some(y) => call!(OutputIndexed, asked, state, index, y),
    }
}

/// Mostly the index of the policy; else wrong in one number, or in its length.
fn some_index(random: &mut Random, policy: &Policy) -> Vec<u16> {
    let mut index = index::index_of(policy).to_vec();
    let used = 2 * policy.locations();
    match random.below(100) {
        0..=69 => {}
        // One number of a location, mostly one more or one less.
        70..=79 => {
            let place = random.between(0, used - 1);
            index[place] = match random.below(3) {
                0 => index[place].wrapping_add(1),
                1 => index[place].wrapping_sub(1),
                _ => random.next() as u16,
            };
        }
        // One number past the locations, or the last one.
        80..=84 => {
            let place = random.between(used.min(INDEX_LENGTH - 1), INDEX_LENGTH - 1);
            index[place] = index[place].wrapping_add(random.between(1, 300) as u16);
        }
        85..=87 => index.truncate(INDEX_LENGTH - 1),
        88..=90 => index.push(0),
        91..=93 => index.truncate(random.between(0, used)),
        94..=96 => index = vec![0; INDEX_LENGTH],
        _ => {
            // As if the first rule of a location without rules were 0.
            let empty = |place: &usize| index[place + 1] == 0 && index[*place] != 0;
            if let Some(place) = (0..used).step_by(2).find(empty) {
                index[place] = 0;
            }
        }
    }
    index
}
