//! Adding a clause never loosens one, and why two enforcers in a row are not
//! the join.

use super::files::{hopeless, marked};
use super::halves::EITHER;
use super::joins;
use super::leaving::TRANSFER;
use super::runs::stream;
use super::*;
use crate::samples::T;

pub fn all() -> Vec<Written> {
    [in_a_row(), together(), nothing_left(), leaving()].concat()
}

/// The second input never.
const NOT_SECOND: &str = "02 41 42 00 00 01 00 00 01 \
    00 02 00 00 00 00 00";

/// Of the four pairs of rules two contradict: only the first input is left.
const BOTH: &str = "02 41 42 00 00 01 00 00 01 \
    00 03 01 00 00 00 00";

fn each(name: &str, file: &str, events: &str, released: &str) -> Written {
    stream(name, file, &[1], events, released, START)
}

/// The first enforcer sets the second input of 0, the second takes it away
/// again: what comes out the first one would edit once more. The other way
/// round, what comes out the second one would.
fn in_a_row() -> Vec<Written> {
    vec![
        each("one of the two", EITHER, "00 03 02 01", "02 01 02 01"),
        each(
            "then not the second",
            NOT_SECOND,
            "02 01 02 01",
            "00 01 00 01",
        ),
        each(
            "then the first enforcer edits again",
            EITHER,
            "00 01 00 01",
            "02 01 02 01",
        ),
        each("not the second", NOT_SECOND, "00 03 02 01", "00 01 00 01"),
        each(
            "what the two in a row release is never the join's",
            BOTH,
            "00 01 00 01",
            "01 01 01 01",
        ),
    ]
}

/// What the join releases passes both.
fn together() -> Vec<Written> {
    vec![
        joins::gives(
            "one of the two, and not the second",
            EITHER,
            NOT_SECOND,
            BOTH,
        ),
        marked("the join", BOTH, 0, &[1]),
        each("the join", BOTH, "00 03 02 01", "01 01 01 01"),
        each(
            "the join's stream passes the one part",
            EITHER,
            "01 01 01 01",
            "01 01 01 01",
        ),
        each(
            "the join's stream passes the other",
            NOT_SECOND,
            "01 01 01 01",
            "01 01 01 01",
        ),
    ]
}

/// The first input never.
const NOT_FIRST: &str = "02 41 42 00 00 01 00 00 01 \
    00 01 00 00 00 00 00";

/// Nothing is left of all three, which two by two have a future.
const NOTHING: &str = "02 41 42 00 00 01 00 00 00";
const NEITHER: &str = "02 41 42 00 00 01 00 00 01 \
    00 03 00 00 00 00 00";

fn nothing_left() -> Vec<Written> {
    vec![
        marked("one of the two", EITHER, 0, &[1]),
        marked("not the first", NOT_FIRST, 0, &[1]),
        joins::gives("neither", NOT_SECOND, NOT_FIRST, NEITHER),
        marked("neither", NEITHER, 0, &[1]),
        joins::gives("a third clause", BOTH, NOT_FIRST, NOTHING),
        hopeless("a third clause leaves nothing", NOTHING, &[0]),
    ]
}

/// T with a transfer that must be finished: (T, TRANSFER) has the locations
/// (0, rest), (0, under way), (1, rest), (1, under way). What A begins leads T
/// to where nothing goes on, so it may not begin; and so it never has to end.
const T_TRANSFER: &str = "01 41 01 42 00 04 00 01 00 01 00 08 \
    00 01 01 00 00 00 03 \
    00 01 01 00 00 00 02 \
    00 01 01 00 00 00 01 \
    00 00 00 00 00 00 00 \
    01 01 01 01 01 00 02 \
    01 01 01 00 00 00 03 \
    01 00 00 01 01 00 00 \
    01 00 00 00 00 00 01";

fn leaving() -> Vec<Written> {
    vec![
        joins::gives("T with a transfer", T, TRANSFER, T_TRANSFER),
        marked("T with a transfer", T_TRANSFER, 1, &[1, 1, 0, 0]),
        stream(
            "the join",
            T_TRANSFER,
            &[1, 1, 0, 0],
            "01 11 10",
            "00 10 10",
            START,
        ),
        stream(
            "T alone lets it pass",
            T,
            &[1, 0],
            "00 10 10",
            "00 10 10",
            START,
        ),
        stream(
            "the transfer alone too",
            TRANSFER,
            &[1, 1],
            "00 10 10",
            "00 10 10",
            START,
        ),
    ]
}
