//! The two halves.

use super::*;
use crate::samples::*;

pub fn all() -> Vec<Written> {
    [inputs(), refused_inputs(), outputs(), refused_outputs()].concat()
}

const BAD_STATES: [(&str, &[u16]); 8] = [
    ("location 2 of two", &[2, 0, 0, 0, 0]),
    ("location 256", &[256, 0, 0, 0, 0]),
    ("clock above its ceiling", &[0, 4, 0, 0, 0]),
    ("second clock not there", &[0, 0, 1, 0, 0]),
    ("last clock not there", &[1, 3, 0, 0, 1]),
    ("four numbers", &[0, 0, 0, 0]),
    ("six numbers", &[0, 0, 0, 0, 0, 0]),
    ("no number", &[]),
];

pub fn input(name: &str, file: &str, marks: &[u8], state: &[u16], x: u8, answer: u64) -> Written {
    let call = call!(Input, about(file, marks, x), state: state.to_vec());
    written(name, call, answer, vec![], vec![])
}

pub fn gives(value: u64) -> u64 {
    value << 8
}

/// What x becomes at the start.
fn becomes(name: &str, file: &str, marks: &[u8], x: u8, passed_on: u64) -> Written {
    input(name, file, marks, &START, x, gives(passed_on))
}

/// Two inputs, of which just one must be set.
pub const EITHER: &str = "02 41 42 00 00 01 00 00 02 \
    00 03 01 00 00 00 00 \
    00 03 02 00 00 00 00";

/// Two outputs, of which just one must be set.
const EITHER_OUT: &str = "00 02 41 42 00 01 00 00 02 \
    00 00 00 03 01 00 00 \
    00 00 00 03 02 00 00";

/// Four inputs, of which just two must be set.
const PAIRS: &str = "04 41 42 43 44 00 00 01 00 00 06 \
    00 0F 03 00 00 00 00 \
    00 0F 05 00 00 00 00 \
    00 0F 06 00 00 00 00 \
    00 0F 09 00 00 00 00 \
    00 0F 0A 00 00 00 00 \
    00 0F 0C 00 00 00 00";

/// Three inputs, which must be 0 or 6.
const NONE_OR_SIX: &str = "03 41 42 43 00 00 01 00 00 02 \
    00 07 00 00 00 00 00 \
    00 07 06 00 00 00 00";

/// Four inputs, which must be 0 or 8.
const NONE_OR_EIGHT: &str = "04 41 42 43 44 00 00 01 00 00 02 \
    00 0F 00 00 00 00 00 \
    00 0F 08 00 00 00 00";

/// One state more than there may be.
pub const OVERFULL: &str = "00 00 02 00 FF 01 00 01 00 00 00";

fn inputs() -> Vec<Written> {
    vec![
        becomes("S keeps 0", S, &[1], 0, 0),
        becomes("S keeps 1", S, &[1], 1, 1),
        becomes("S keeps 2", S, &[1], 2, 2),
        becomes("S: 3 becomes 1", S, &[1], 3, 1),
        becomes("T: 1 becomes 0", T, &[1, 0], 1, 0),
        becomes("T: mark 2 is not live", T, &[1, 2], 1, 0),
        becomes("T: mark 255 is not live", T, &[1, 255], 1, 0),
        becomes("T: the marks are read as given", T, &[1, 1], 1, 1),
        becomes("more marks than states", T, &[1, 0, 1, 1], 1, 0),
        becomes(
            "0 between 1 and 2 keeps the first input",
            EITHER,
            &[1],
            0,
            2,
        ),
        becomes("3 between 1 and 2", EITHER, &[1], 3, 1),
        becomes("7 is nearer to 6 than to 0", NONE_OR_SIX, &[1], 7, 6),
        becomes("1 is nearer to 0 than to 6", NONE_OR_SIX, &[1], 1, 0),
        becomes(
            "2 is one bit from both, and 6 keeps the second input",
            NONE_OR_SIX,
            &[1],
            2,
            6,
        ),
        becomes(
            "4 is one bit from both, and 0 keeps the second input",
            NONE_OR_SIX,
            &[1],
            4,
            0,
        ),
        becomes(
            "0 is two bits from all, and 12 keeps the first two",
            PAIRS,
            &[1],
            0,
            12,
        ),
        becomes(
            "15 is two bits from all, and 3 keeps the first two",
            PAIRS,
            &[1],
            15,
            3,
        ),
        becomes(
            "7 is one bit from 3, 5 and 6, and 3 keeps the first two",
            PAIRS,
            &[1],
            7,
            3,
        ),
        becomes("15 is nearer to 8 than to 0", NONE_OR_EIGHT, &[1], 15, 8),
        becomes("7 is nearer to 0 than to 8", NONE_OR_EIGHT, &[1], 7, 0),
        becomes("K has only the input 0", K, &[1; 4], 0, 0),
    ]
}

fn refused_inputs() -> Vec<Written> {
    let bad_state = |(name, state): (&str, &[u16])| {
        // An x out of range as well: 16 comes before 15.
        input(&format!("16: {name}"), D, &[1; 8], state, 2, 16)
    };
    let mut all: Vec<Written> = BAD_STATES.map(bad_state).into();
    all.extend([
        input("16: mark 0", T, &[1, 0], &[1, 0, 0, 0, 0], 0, 16),
        input("16: mark 2", S, &[2], &START, 0, 16),
        input("15: x 4 in S", S, &[1], &START, 4, 15),
        input("15: x 16 in S", S, &[1], &START, 16, 15),
        input("15: x 1 without inputs", K, &[1; 4], &START, 1, 15),
        input("15 before 17", N, &[1], &START, 1, 15),
        input("17: no rule", N, &[1], &START, 0, 17),
        input(
            "17: a state without a way on",
            T,
            &[1, 1],
            &[1, 0, 0, 0, 0],
            0,
            17,
        ),
        input("10 before 16", D, &[1; 7], &[9, 9, 9, 9, 9], 9, 10),
        input("8 before 10", "00 00 00 01 00 00 00 00", &[], &START, 0, 8),
        input("9 before 10", OVERFULL, &[], &START, 0, 9),
    ]);
    all
}

pub struct Ask<'a> {
    pub file: &'a str,
    pub marks: &'a [u8],
    pub state: &'a [u16],
    pub x: u8,
    pub y: u8,
}

pub fn ask<'a>(file: &'a str, marks: &'a [u8], state: &'a [u16], x: u8, y: u8) -> Ask<'a> {
    Ask {
        file,
        marks,
        state,
        x,
        y,
    }
}

pub fn output(name: &str, ask: Ask, answer: u64, after: &[u16]) -> Written {
    let asked = about(ask.file, ask.marks, ask.x);
    let call = call!(Output, asked, state: ask.state.to_vec(), y: ask.y);
    written(name, call, answer, vec![], after.to_vec())
}

fn in_d(state: &[u16], x: u8, y: u8) -> Ask<'_> {
    ask(D, &[1; 8], state, x, y)
}

fn in_s(x: u8, y: u8) -> Ask<'static> {
    ask(S, &[1], &START, x, y)
}

fn in_k(state: &[u16], y: u8) -> Ask<'_> {
    ask(K, &[1; 4], state, 0, y)
}

fn in_either(y: u8) -> Ask<'static> {
    ask(EITHER_OUT, &[1], &START, 0, y)
}

fn outputs() -> Vec<Written> {
    let waiting = |clock| [1, clock, 0, 0, 0];
    let clock = |clock| [0, clock, 0, 0, 0];
    vec![
        output("S: no R with B", in_s(2, 1), gives(0), &START),
        output("S: R with A", in_s(1, 1), gives(1), &START),
        output(
            "D: R starts the clock",
            in_d(&START, 1, 0),
            gives(0),
            &waiting(0),
        ),
        output(
            "D: without R the clock stays 0",
            in_d(&clock(3), 0, 1),
            gives(1),
            &START,
        ),
        output(
            "D: the third tick may wait",
            in_d(&waiting(2), 0, 0),
            gives(0),
            &waiting(3),
        ),
        output(
            "D: the fourth may not",
            in_d(&waiting(3), 1, 0),
            gives(1),
            &START,
        ),
        output("K: credit at 2", in_k(&clock(2), 1), gives(1), &clock(3)),
        output(
            "K: none at 3, where the clock stops",
            in_k(&clock(3), 1),
            gives(0),
            &clock(3),
        ),
        output(
            "0 between 1 and 2 keeps the first output",
            in_either(0),
            gives(2),
            &START,
        ),
        output(
            "3 between 1 and 2 keeps the first output",
            in_either(3),
            gives(1),
            &START,
        ),
        output("2 may stand", in_either(2), gives(2), &START),
        output(
            "T: marks as given let it go",
            ask(T, &[1, 1], &START, 1, 1),
            gives(1),
            &[1, 0, 0, 0, 0],
        ),
    ]
}

fn refused_outputs() -> Vec<Written> {
    let bad_state = |(name, state): (&str, &[u16])| {
        output(&format!("16: {name}"), in_d(state, 2, 2), 16, state)
    };
    let dead = [1, 0, 0, 0, 0];
    let far = [9, 9, 9, 9, 9];
    let mut all: Vec<Written> = BAD_STATES.map(bad_state).into();
    all.extend([
        output("15: x 4 in S", in_s(4, 0), 15, &START),
        output("15: y 2 in S", in_s(0, 2), 15, &START),
        output("15 before 17", in_s(3, 2), 15, &START),
        output("17: A with B has no output", in_s(3, 0), 17, &START),
        output(
            "17: the x' leads only to a state not marked",
            ask(T, &[1, 0], &START, 1, 0),
            17,
            &START,
        ),
        output("16: mark 0", ask(T, &[1, 0], &dead, 0, 0), 16, &dead),
        output("10 before 16", ask(D, &[1; 7], &far, 9, 9), 10, &far),
        output("9 before 10", ask(OVERFULL, &[], &far, 9, 9), 9, &far),
        output("1 before all", ask("00", &[], &far, 9, 9), 1, &far),
    ]);
    all
}
