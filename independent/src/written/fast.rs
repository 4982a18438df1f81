//! The second engine.

use super::files::found;
use super::halves::OVERFULL;
use super::leaving::{ENDLESS, MISSED, MISSED_MARKS, TRANSFER, UNFINISHED};
use super::*;
use crate::samples::*;

pub fn all() -> Vec<Written> {
    [as_prepare(), chains(), too_short(), in_order()].concat()
}

/// What the work slices hold before does not matter.
const NOISE: [u16; 5] = [0, 1, 255, 65_535, 0xEEEE];

fn fast(
    name: &str,
    file: &str,
    room: [usize; 5],
    answer: u64,
    marks: &[u8],
    lent: usize,
) -> Written {
    let mut noise = NOISE.into_iter();
    let call = Call::PrepareFast {
        reading: FIRST_READING,
        file: from_hex(file),
        marks: vec![FILLER; lent],
        work: room.map(|entries| vec![noise.next().unwrap_or(3); entries]),
    };
    written(
        &format!("fast: {name}"),
        call,
        answer,
        filled(marks, lent),
        vec![],
    )
}

/// With as many entries in each slice as there are states.
fn exact(name: &str, file: &str, verdict: u64, marks: &[u8]) -> Written {
    let states = marks.len();
    fast(
        name,
        file,
        [states; 5],
        found(verdict, marks),
        marks,
        states,
    )
}

/// The same where the start does not live.
fn hopeless(name: &str, file: &str, marks: &[u8]) -> Written {
    fast(name, file, [marks.len(); 5], 11, marks, marks.len())
}

fn as_prepare() -> Vec<Written> {
    vec![
        exact("S", S, 0, &[1]),
        exact("D", D, 0, &[1; 8]),
        exact("D", D, 0, &[1; 8]).under(2),
        exact("T", T, 1, &[1, 0]),
        exact("K", K, 0, &[1; 4]),
        hopeless("N: 11, and the mark is written", N, &[0]),
        exact("a transfer", TRANSFER, 0, &[1, 1]),
        exact("a transfer that cannot be finished", UNFINISHED, 1, &[1, 0]),
        exact("the same where it may rest", ENDLESS, 0, &[1, 1]),
        exact("a clock value too late", MISSED, 1, &MISSED_MARKS),
        fast(
            "more of everything",
            T,
            [3, 9, 2, 5, 40],
            found(1, &[1, 0]),
            &[1, 0],
            5,
        ),
    ]
}

/// The start leads to 3, which leads to 2, which leads to 1, which leads to
/// nothing: each falls after the one with the lower number, the start last.
const FALLING: &str = "00 00 00 04 00 00 00 00 00 03 \
    00 00 00 00 00 00 03 \
    02 00 00 00 00 00 01 \
    03 00 00 00 00 00 02";

/// The same where the start may stay.
const BESIDE_FALLING: &str = "01 41 00 00 04 00 00 00 00 00 04 \
    00 01 01 00 00 00 03 \
    00 00 00 00 00 00 00 \
    02 00 00 00 00 00 01 \
    03 00 00 00 00 00 02";

/// Three locations in a ring, all of which must be left; from the last one can
/// also go to 3, which may rest and leads nowhere.
const RESTLESS: &str = "01 41 00 00 04 01 01 01 00 00 04 \
    00 00 00 00 00 00 01 \
    01 00 00 00 00 00 02 \
    02 01 01 00 00 00 03 \
    02 00 00 00 00 00 00";

/// The same, but 3 leads back into the ring.
const COMES_TO_REST: &str = "01 41 00 00 04 01 01 01 00 00 05 \
    00 00 00 00 00 00 01 \
    01 00 00 00 00 00 02 \
    02 01 01 00 00 00 03 \
    02 00 00 00 00 00 00 \
    03 00 00 00 00 00 01";

fn chains() -> Vec<Written> {
    vec![
        hopeless("states fall in rising order", FALLING, &[0; 4]),
        exact("the start stays", BESIDE_FALLING, 1, &[1, 0, 0, 0]),
        hopeless("a loop that must be left", RESTLESS, &[0; 4]),
        exact("a loop that comes to rest", COMES_TO_REST, 0, &[1; 4]),
    ]
}

/// 23 exactly if a slice has fewer entries than there are states.
fn too_short() -> Vec<Written> {
    let mut all = Vec::new();
    for slice in 0..5 {
        for (name, file, states) in [("D", D, 8), ("T", T, 2), ("N, before 11", N, 1)] {
            let mut room = [states; 5];
            room[slice] -= 1;
            let name = format!("23: {name}, slice {slice}");
            all.push(fast(&name, file, room, 23, &[], states));
        }
    }
    all.push(fast("23: nothing lent", S, [0; 5], 23, &[], 1));
    all
}

/// 22, 1 to 9, 10, 23, 11.
fn in_order() -> Vec<Written> {
    vec![
        fast("22 first", "05", [0; 5], 22, &[], 0).under(3),
        fast("22 first", T, [2; 5], 22, &[], 2).under(0),
        fast("9 before 10 and 23", OVERFULL, [0; 5], 9, &[], 0),
        fast("10 before 23", D, [0; 5], 10, &[], 7),
        fast("10", D, [8; 5], 10, &[], 7),
        fast("23 before 11", N, [1, 1, 1, 1, 0], 23, &[], 1),
    ]
}
