//! The reasons for a run of events.

use super::halves::OVERFULL;
use super::*;
use crate::samples::*;

pub fn all() -> Vec<Written> {
    [explained(), refused(), in_order()].concat()
}

/// What a place for a reason holds before a call here.
const BEFORE: u64 = 0xEEEE_EEEE_EEEE_EEEE;

const NO_RULE: u64 = 2;
const NO_TICK_MORE: u64 = 3;

/// The input alone is edited, for the reason with this kind and number.
fn input(kind: u64, number: u64) -> u64 {
    kind << 8 | number << 16
}

/// The output alone is.
fn output(kind: u64, number: u64) -> u64 {
    kind << 32 | number << 40
}

/// A policy, its marks, a state and events.
#[derive(Clone, Copy)]
struct Run<'a> {
    file: &'a str,
    marks: &'a [u8],
    state: &'a [u16],
    events: &'a [u8],
}

fn from_start<'a>(file: &'a str, marks: &'a [u8], events: &'a [u8]) -> Run<'a> {
    Run {
        file,
        marks,
        state: &START,
        events,
    }
}

/// With places for so many reasons, and work slices with so many entries.
fn lent(name: &str, run: Run, places: usize, room: [usize; 8], answer: u64) -> Written {
    let call = Call::WhyRun {
        reading: FIRST_READING,
        file: from_hex(run.file),
        marks: run.marks.to_vec(),
        state: run.state.to_vec(),
        events: run.events.to_vec(),
        reasons: vec![BEFORE; places],
        ticks: vec![7; room[0]],
        rests: vec![7; room[1]],
        prepared: vec![FILLER; room[2]],
        work: [3, 4, 5, 6, 7].map(|slice| vec![7; room[slice]]),
    };
    let name = format!("why_run: {name}");
    let state = run.state.to_vec();
    written(&name, call, answer, vec![], state).with_reasons(&vec![BEFORE; places])
}

/// All is explained, and the state is then another. One place is left over.
fn gives(name: &str, run: Run, reasons: &[u64], state: State) -> Written {
    let count = run.events.len();
    let room = [run.marks.len(); 8];
    let mut gives = lent(name, run, count + 1, room, (count as u64) << 8);
    gives.expected.state = state.to_vec();
    gives.with_reasons(&[reasons, &[BEFORE]].concat())
}

fn explained() -> Vec<Written> {
    let deadline = from_start(D, &[1; 8], &[0x01, 0, 0, 0, 0]);
    let late = from_start(K, &[1; 4], &[0, 0, 0, 0x10, 0x10]);
    let credit = output(1, 0);
    vec![
        gives("nothing", from_start(T, &[1, 0], &[]), &[], START),
        gives(
            "S as it may be",
            from_start(S, &[1], &[0x11, 0]),
            &[0; 2],
            START,
        ),
        gives(
            "S: the marked cases",
            from_start(S, &[1], &[0x03, 0x12, 0x13, 0x11]),
            &[input(1, 0), output(1, 1), input(1, 0), 0],
            START,
        ),
        gives(
            "T: no tick more",
            from_start(T, &[1, 0], &[0x01, 0x11]),
            &[input(NO_TICK_MORE, 0); 2],
            START,
        ),
        // The fifth event is edited because of the four before it.
        gives(
            "D: the fourth tick, no rule",
            deadline,
            &[0, 0, 0, 0, output(NO_RULE, 0)],
            START,
        ),
        gives(
            "K: credit at 3, rule 0",
            late,
            &[0, 0, 0, credit, credit],
            [0, 3, 0, 0, 0],
        ),
        // Under the second reading the fourth is too late already.
        {
            let mut early = gives(
                "D: the third tick",
                Run {
                    events: &[0x01, 0, 0, 0],
                    ..deadline
                },
                &[0, 0, 0, output(NO_RULE, 0)],
                START,
            );
            early.call = early.call.under(2);
            early
        },
    ]
}

fn refused() -> Vec<Written> {
    let run = from_start(T, &[1, 0], &[0x01, 0x11]);
    let mut all: Vec<Written> = (0..8)
        .map(|short| {
            let mut room = [2; 8];
            room[short] = 1;
            lent(&format!("23: work slice {short}"), run, 2, room, 23)
        })
        .collect();
    let marks = |marks| Run { marks, ..run };
    let state = |state| Run { state, ..run };
    let events = |events| Run { events, ..run };
    all.extend([
        lent("14: one place too few", run, 1, [2; 8], 14),
        lent("14: no place", run, 0, [2; 8], 14),
        lent("20: a dead state marked", marks(&[1, 1]), 2, [2; 8], 20),
        lent("20: 2 for 0", marks(&[1, 2]), 2, [2; 8], 20),
        lent(
            "16: in a dead state",
            state(&[1, 0, 0, 0, 0]),
            2,
            [2; 8],
            16,
        ),
        lent("16: four numbers", state(&[0; 4]), 2, [2; 8], 16),
        lent("16: six numbers", state(&[0; 6]), 2, [2; 8], 16),
        lent("15: the last x", events(&[0, 0x02]), 2, [2; 8], 15),
        lent("15: the first y", events(&[0x20, 0]), 2, [2; 8], 15),
    ]);
    all
}

/// 22, 1 to 9, 10, 23, 14, 16, 20, 15.
fn in_order() -> Vec<Written> {
    let wrong = |file, marks| Run {
        file,
        marks,
        state: &[9; 6],
        events: &[255; 2],
    };
    let right = |marks| from_start(T, marks, &[255; 2]);
    vec![
        lent("22 first", wrong("05", &[]), 1, [0; 8], 22).under(3),
        lent("22 first", wrong("05", &[]), 1, [0; 8], 22).under(0),
        lent("1", wrong("00", &[]), 1, [0; 8], 1),
        lent("9 before 10", wrong(OVERFULL, &[]), 1, [0; 8], 9),
        lent("10 before 23", wrong(T, &[1]), 1, [0; 8], 10),
        lent("23 before 14", wrong(T, &[2, 2]), 1, [1; 8], 23),
        lent("14 before 16", wrong(T, &[2, 2]), 1, [2; 8], 14),
        lent("16 before 20", wrong(T, &[2, 2]), 2, [2; 8], 16),
        lent("20 before 15", right(&[1, 1]), 2, [2; 8], 20),
        lent("15 last", right(&[1, 0]), 2, [2; 8], 15),
    ]
}
