//! Faults in the bytes of a text.

use crate::random::Random;

/// Bytes that mean something in a text, or are none of it.
const BYTES: [u8; 33] = *b"\n\r\t #!->=<_aAzZ059q\0\x0B\x0C\x1F\x7F\x80\xA0\xFF[`@{/:";

pub fn spoil(random: &mut Random, text: &mut Vec<u8>) {
    if text.is_empty() {
        text.push(random.pick(&BYTES));
        return;
    }
    let place = random.between(0, text.len() - 1);
    match random.below(8) {
        0 => text[place] ^= 1 << random.below(8),
        1 => text[place] = random.pick(&BYTES),
        2 => drop(text.remove(place)),
        3 => text.insert(place, text[place]),
        4 | 5 => text.insert(place, random.pick(&BYTES)),
        6 => text.truncate(place),
        _ => text.swap(place, random.pick(&[place.saturating_sub(1), 0])),
    }
}
