//! The rule index and the halves that go by it, spoilt.

use super::{Fault, Spoilt};
use crate::engine::{Engine, Model};
use crate::index::{self, Indexed};
use crate::parse;

pub fn index(spoilt: &Spoilt, file: &[u8], index: &mut [u16]) -> u64 {
    let answer = Model.index(file, index);
    if spoilt.has(Fault::EmptyLocationFirstIsNone) && answer == 0 {
        for entry in index.chunks_mut(2).filter(|entry| entry[1..] == [0]) {
            entry[0] = 0;
        }
    }
    answer
}

pub fn input_indexed(spoilt: &Spoilt, indexed: Indexed, state: &[u16], x: u8) -> u64 {
    let index = seen_index(spoilt, indexed, state);
    Model.input_indexed((indexed.0, &index), state, x)
}

pub fn output_indexed(spoilt: &Spoilt, indexed: Indexed, state: &mut [u16], x: u8, y: u8) -> u64 {
    let index = seen_index(spoilt, indexed, state);
    Model.output_indexed((indexed.0, &index), state, x, y)
}

/// The index as a spoilt reader sees it: where it would take a wrong
/// one, it sees the right one.
fn seen_index(spoilt: &Spoilt, (basis, lent): Indexed, state: &[u16]) -> Vec<u16> {
    let Ok(policy) = parse::check(basis.file) else {
        return lent.to_vec();
    };
    let right = index::index_of(&policy).to_vec();
    let used = 2 * policy.locations();
    let own = state
        .first()
        .map_or(0, |&location| 2 * usize::from(location));
    let taken = match spoilt.fault {
        Fault::IndexNotLookedAt => lent.len() == right.len(),
        Fault::AnyLengthOfIndex => lent.starts_with(&right[..used]),
        Fault::IndexPastTheLocations => lent.len() == right.len() && lent[..used] == right[..used],
        Fault::OwnEntryOnly => {
            lent.len() == right.len() && lent.get(own..own + 2) == right.get(own..own + 2)
        }
        Fault::MarksBeforeIndex => (basis.marks.len() as u64) < policy.states(),
        _ => false,
    };
    match taken {
        true => right,
        false => lent.to_vec(),
    }
}
