//! Runs: the marked cases, the long one, and what is refused.

use super::halves::OVERFULL;
use super::*;
use crate::samples::*;

pub fn all() -> Vec<Written> {
    [marked(), beside_the_marked(), refused()].concat()
}

pub struct Run<'a> {
    pub file: &'a str,
    pub marks: &'a [u8],
    pub state: &'a [u16],
    pub events: &'a [u8],
    pub lent: usize,
}

pub fn run(name: &str, run: Run, answer: u64, released: &[u8], after: &[u16]) -> Written {
    let call = Call::Run {
        reading: FIRST_READING,
        file: from_hex(run.file),
        marks: run.marks.to_vec(),
        state: run.state.to_vec(),
        events: run.events.to_vec(),
        released: filled(&[], run.lent),
    };
    written(
        name,
        call,
        answer,
        filled(released, run.lent),
        after.to_vec(),
    )
}

/// A stream from the start, into a slice just as long, that is not refused.
pub fn stream(
    name: &str,
    file: &str,
    marks: &[u8],
    events: &str,
    released: &str,
    after: State,
) -> Written {
    let (events, released) = (from_hex(events), from_hex(released));
    let asked = Run {
        file,
        marks,
        state: &START,
        events: &events,
        lent: events.len(),
    };
    run(name, asked, (events.len() as u64) << 8, &released, &after)
}

fn marked() -> Vec<Written> {
    let clock = |value| [0, value, 0, 0, 0];
    vec![
        stream("case 1: S", S, &[1], "03", "01", START),
        stream("case 2: S", S, &[1], "12", "02", START),
        stream("case 3: S", S, &[1], "13", "11", START),
        stream("case 4: S", S, &[1], "11", "11", START),
        stream(
            "case 7: D",
            D,
            &[1; 8],
            "01 00 00 00 00",
            "01 00 00 00 10",
            START,
        ),
        stream("case 9: T", T, &[1, 0], "01 11", "00 10", START),
        stream("case 11: K", K, &[1; 4], "00 00 10", "00 00 10", clock(3)),
        stream(
            "case 12: K",
            K,
            &[1; 4],
            "00 00 00 10",
            "00 00 00 00",
            clock(3),
        ),
    ]
}

/// Two inputs and two outputs: of each just one must be set.
const ONE_OF_TWO: &str = "02 41 42 02 43 44 00 01 00 00 04 \
    00 03 01 03 01 00 00 \
    00 03 01 03 02 00 00 \
    00 03 02 03 01 00 00 \
    00 03 02 03 02 00 00";

/// K after so many quiet ticks, at least three: the credit is refused.
pub fn late_credit(quiet: usize) -> Written {
    let mut events = vec![0; quiet];
    events.push(0x10);
    let released = vec![0; quiet + 1];
    let late = Run {
        file: K,
        marks: &[1; 4],
        state: &START,
        events: &events,
        lent: events.len(),
    };
    let answer = (events.len() as u64) << 8;
    let name = format!("K after {quiet} quiet ticks");
    run(&name, late, answer, &released, &[0, 3, 0, 0, 0])
}

fn beside_the_marked() -> Vec<Written> {
    let longer = Run {
        file: S,
        marks: &[1],
        state: &START,
        events: &[3],
        lent: 3,
    };
    let pending = Run {
        file: D,
        marks: &[1; 8],
        state: &[1, 2, 0, 0, 0],
        events: &[0x00, 0x00, 0x01],
        lent: 3,
    };
    vec![
        late_credit(65_537),
        stream("an empty stream", S, &[1], "", "", START),
        stream(
            "ties keep the first signals",
            ONE_OF_TWO,
            &[1],
            "00 03 30 33 12",
            "22 21 12 11 12",
            START,
        ),
        run("bytes past the released stay", longer, 1 << 8, &[1], &START),
        run(
            "D from a pending state",
            pending,
            3 << 8,
            &[0x00, 0x10, 0x01],
            &[1, 0, 0, 0, 0],
        ),
    ]
}

fn refused() -> Vec<Written> {
    let base = Run {
        file: S,
        marks: &[1],
        state: &START,
        events: &[4],
        lent: 1,
    };
    let elsewhere: &[u16] = &[1, 0, 0, 0, 0];
    let live_t: &[u8] = &[1, 1];
    let in_t = |state, events, lent| Run {
        file: T,
        marks: live_t,
        state,
        events,
        lent,
    };
    vec![
        run("S with 04", base, 15, &[], &START),
        run(
            "15: a later event, and nothing is released",
            Run {
                file: S,
                marks: &[1],
                state: &START,
                events: &[3, 0x20],
                lent: 4,
            },
            15,
            &[],
            &START,
        ),
        run(
            "14: one byte too few",
            Run {
                file: S,
                marks: &[1],
                state: &START,
                events: &[3, 3],
                lent: 1,
            },
            14,
            &[],
            &START,
        ),
        run(
            "14 before 16 and 15",
            Run {
                file: S,
                marks: &[1],
                state: elsewhere,
                events: &[4],
                lent: 0,
            },
            14,
            &[],
            elsewhere,
        ),
        run(
            "10 before 14",
            Run {
                file: S,
                marks: &[],
                state: &START,
                events: &[3],
                lent: 0,
            },
            10,
            &[],
            &START,
        ),
        run(
            "9 before 10",
            Run {
                file: OVERFULL,
                marks: &[],
                state: &START,
                events: &[3],
                lent: 0,
            },
            9,
            &[],
            &START,
        ),
        run(
            "16 before 15",
            Run {
                file: S,
                marks: &[1],
                state: elsewhere,
                events: &[4],
                lent: 1,
            },
            16,
            &[],
            elsewhere,
        ),
        run(
            "16 with an empty stream",
            Run {
                file: S,
                marks: &[0],
                state: &START,
                events: &[],
                lent: 0,
            },
            16,
            &[],
            &START,
        ),
        run(
            "16: a state of four numbers",
            Run {
                file: S,
                marks: &[1],
                state: &[0; 4],
                events: &[3],
                lent: 1,
            },
            16,
            &[],
            &[0; 4],
        ),
        run("15 before 17", in_t(elsewhere, &[2], 1), 15, &[], elsewhere),
        run("17 at once", in_t(elsewhere, &[0], 2), 17, &[], elsewhere),
        run(
            "17 after one event",
            in_t(&START, &[0x11, 0, 0], 4),
            17 | 1 << 8,
            &[0x11],
            elsewhere,
        ),
        run(
            "17 after two events",
            in_t(&START, &[0x10, 0x01, 0], 3),
            17 | 2 << 8,
            &[0x10, 0x01],
            elsewhere,
        ),
        run(
            "no 17 after the last event",
            in_t(&START, &[0x01], 1),
            1 << 8,
            &[1],
            elsewhere,
        ),
    ]
}
