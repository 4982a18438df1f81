//! The two readings of a deadline.

use super::files::{hopeless, marked, prepare};
use super::halves::{self, ask, input, output};
use super::joins::D_D;
use super::leaving::{MISSED, MISSED_MARKS};
use super::runs::{late_credit, run, stream, Run};
use super::*;
use crate::samples::*;

pub fn all() -> Vec<Written> {
    [
        deadline(),
        deadline_by_halves(),
        credit(),
        windows(),
        lives(),
        leaving(),
        together(),
        other_marks(),
        without_clocks(),
        unknown(),
    ]
    .concat()
}

/// The same call under another reading, with what is then expected.
fn under(reading: u8, written: Written) -> Written {
    Written {
        name: format!("reading {reading}: {}", written.name),
        call: written.call.under(reading),
        ..written
    }
}

fn first(written: Written) -> Written {
    under(1, written)
}

fn second(written: Written) -> Written {
    under(2, written)
}

fn in_d(events: &str, released: &str) -> Written {
    stream("D", D, &[1; 8], events, released, START)
}

fn deadline() -> Vec<Written> {
    vec![
        second(marked("D", D, 0, &[1; 8])),
        first(in_d("01 00 00 00 00", "01 00 00 00 10")),
        second(in_d("01 00 00 00 00", "01 00 00 10 00")),
        // An answer that comes in time is left alone, and a second R while C
        // is due starts nothing anew.
        second(in_d("01 00 00 10 00", "01 00 00 10 00")),
        second(in_d("01 01 01 01 10", "01 01 01 11 10")),
    ]
}

/// Location 1 of D, waiting for C.
fn waiting(clock: u16) -> [u16; 5] {
    [1, clock, 0, 0, 0]
}

fn wait(clock: u16, answer: u64, after: &[u16]) -> Written {
    let state = waiting(clock);
    let asked = ask(D, &[1; 8], &state, 0, 0);
    let name = format!("D waits at {clock}");
    output(&name, asked, halves::gives(answer), after)
}

/// The clock goes up by one from where it was, not from what was read.
fn deadline_by_halves() -> Vec<Written> {
    let keeps = |clock| input("D", D, &[1; 8], &waiting(clock), 1, halves::gives(1));
    vec![
        second(wait(0, 0, &waiting(1))),
        second(wait(1, 0, &waiting(2))),
        second(wait(2, 1, &START)),
        second(wait(3, 1, &START)),
        first(wait(1, 0, &waiting(2))),
        first(wait(2, 0, &waiting(3))),
        first(wait(3, 1, &START)),
        second(keeps(2)),
        second(keeps(3)),
    ]
}

fn clock(value: u16) -> State {
    [0, value, 0, 0, 0]
}

fn in_k(events: &str, released: &str, after: u16) -> Written {
    stream("K", K, &[1; 4], events, released, clock(after))
}

fn credit() -> Vec<Written> {
    vec![
        second(marked("K", K, 0, &[1; 4])),
        second(in_k("10", "10", 1)),
        second(in_k("00 10", "00 10", 2)),
        second(in_k("00 00 10", "00 00 00", 3)),
        second(in_k("00 00 00 10", "00 00 00 00", 3)),
        // A clock of 16 bits that does not stop shows 1 after 65,537 ticks, of
        // which reading 2 makes 2, and after 65,535 ticks it makes 0.
        first(late_credit(65_535)),
        second(late_credit(65_535)),
        second(late_credit(65_537)),
    ]
}

/// The output K not while the clock is at most 1.
const NOT_EARLY: &str = "00 01 4B 01 00 03 01 00 00 02 \
    00 00 00 01 01 00 FF 00 00 00 01 \
    00 00 00 00 00 00 00 00 00 FF FF";

/// The output K only from the ceiling on.
const LATE: &str = "00 01 4B 01 00 03 01 00 00 02 \
    00 00 00 01 01 00 00 00 03 FF FF \
    00 00 00 01 00 00 00 00 00 FF FF";

fn windows() -> Vec<Written> {
    let early = |released| stream("an end", NOT_EARLY, &[1; 4], "10 10 10", released, clock(3));
    let late = |released| {
        let events = "10 10 10 10 10";
        stream("a beginning", LATE, &[1; 4], events, released, clock(3))
    };
    vec![
        first(early("00 00 10")),
        second(early("00 10 10")),
        first(late("00 00 00 10 10")),
        second(late("00 00 10 10 10")),
    ]
}

/// One rule, which sets the one clock back and holds for 0 only.
const AT_NONE: &str = "00 00 01 00 01 01 00 00 01 00 00 00 00 00 01 00 00 00 00 00";
/// One rule, which sets the one clock back and holds from 1 on.
const FROM_ONE: &str = "00 00 01 00 01 01 00 00 01 00 00 00 00 00 01 00 00 01 FF FF";

/// A policy may have a future under one reading and none under the other.
fn lives() -> Vec<Written> {
    vec![
        first(marked("at 0 only", AT_NONE, 0, &[1, 0])),
        second(hopeless("at 0 only", AT_NONE, &[0, 0])),
        first(hopeless("from 1 on", FROM_ONE, &[0, 0])),
        second(marked("from 1 on", FROM_ONE, 0, &[1, 1])),
        second(stream(
            "from 1 on",
            FROM_ONE,
            &[1, 1],
            "00 00 00",
            "00 00 00",
            START,
        )),
    ]
}

/// The marks of reading 2: one clock value more is too late.
const MISSED_SECOND: [u8; 8] = [1, 1, 1, 1, 1, 1, 0, 0];

fn leaving() -> Vec<Written> {
    vec![
        second(marked(
            "a clock value too late to rest again",
            MISSED,
            1,
            &MISSED_SECOND,
        )),
        second(stream(
            "left at the last chance",
            MISSED,
            &MISSED_SECOND,
            "01 00 00 00 00",
            "01 00 10 00 00",
            START,
        )),
    ]
}

/// The bytes of a join carry no reading: read in one way, they are the join of
/// the parts read in that way.
fn together() -> Vec<Written> {
    let twice = |released| {
        let events = "01 00 00 00 00";
        stream("D with itself", D_D, &[1; 64], events, released, START)
    };
    let all_live = || marked("D with itself", D_D, 0, &[1; 64]);
    vec![
        first(all_live()),
        second(all_live()),
        first(twice("01 00 00 00 10")),
        second(twice("01 00 00 10 00")),
    ]
}

/// Marks are read as given, those of the other reading too.
fn other_marks() -> Vec<Written> {
    let missed = Run {
        file: MISSED,
        marks: &MISSED_MARKS,
        state: &START,
        events: &[1, 0, 0, 0, 0],
        lent: 5,
    };
    let stuck = [1, 2, 0, 0, 0];
    vec![
        second(input("marks of 1", AT_NONE, &[1, 0], &START, 0, 17)),
        first(input("marks of 2", FROM_ONE, &[1, 1], &START, 0, 17)),
        second(run("marks of 1", missed, 17 | 3 << 8, &[1, 0, 0], &stuck)),
    ]
}

/// Without clocks there is nothing to read.
fn without_clocks() -> Vec<Written> {
    vec![
        second(marked("S", S, 0, &[1])),
        second(marked("T", T, 1, &[1, 0])),
        second(hopeless("N", N, &[0])),
        second(stream("S", S, &[1], "03 12 13 11", "01 02 11 11", START)),
        second(stream("T", T, &[1, 0], "01 11", "00 10", START)),
    ]
}

/// Numbers that name no reading.
const UNKNOWN: [u8; 5] = [0, 3, 4, 18, 255];

/// 22 before all else, and nothing is written.
fn unknown() -> Vec<Written> {
    let refused = |number| {
        move |asked: Written| {
            let expected = Outcome {
                answer: 22,
                bytes: asked.call.lent_bytes().to_vec(),
                state: asked.call.lent_state().to_vec(),
                ..Outcome::default()
            };
            under(number, Written { expected, ..asked })
        }
    };
    UNKNOWN
        .into_iter()
        .flat_map(|number| good_and_bad().into_iter().map(refused(number)))
        .collect()
}

/// Of each function a call that reading 1 does not refuse, and one in which
/// all is wrong that can be; and a prepare that 11 would let write. What they
/// expect here is not looked at.
fn good_and_bad() -> Vec<Written> {
    let (late, far) = (waiting(3), [9; 6]);
    let asked = ask(D, &[1; 8], &late, 0, 0);
    let wrong = ask("05", &[], &far, 255, 255);
    let wrong_run = Run {
        file: "05",
        marks: &[],
        state: &far,
        events: &[255],
        lent: 0,
    };
    vec![
        prepare("T", T, 2, 0, &[]),
        prepare("N", N, 1, 0, &[]),
        prepare("all wrong", "05", 0, 0, &[]),
        input("T", T, &[1, 0], &START, 1, 0),
        input("all wrong", "05", &[], &far, 255, 0),
        output("D", asked, 0, &[]),
        output("all wrong", wrong, 0, &[]),
        in_k("10 10", "", 0),
        run("all wrong", wrong_run, 0, &[], &far),
    ]
}
