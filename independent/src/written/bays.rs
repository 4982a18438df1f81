//! Several bays with one table.

use super::halves::gives;
use super::*;
use crate::samples::*;

pub fn all() -> Vec<Written> {
    [lists(), ticks(), refused(), in_order()].concat()
}

fn list(length: usize, answer: u64) -> Written {
    let call = Call::BaysNew {
        states: vec![0xEEEE; length],
    };
    let after = vec![if answer == 0 { 0 } else { 0xEEEE }; length];
    let name = format!("a list of {length} numbers");
    written(&name, call, answer, vec![], after)
}

fn lists() -> Vec<Written> {
    let made = [5, 10, 15, 20, 25, 30, 35, 40].map(|length| list(length, 0));
    let refused = [0, 1, 4, 6, 9, 11, 39, 41, 44, 45, 50].map(|length| list(length, 25));
    made.into_iter().chain(refused).collect()
}

struct Bays<'a> {
    file: &'a str,
    marks: &'a [u8],
    states: &'a [&'a [u16]],
    bay: u32,
}

fn input(name: &str, bays: Bays, x: u8, answer: u64) -> Written {
    let asked = about(bays.file, bays.marks, x);
    let call = call!(BayInput, asked, states: bays.states.concat(), bay: bays.bay);
    written(&format!("bays: {name}"), call, answer, vec![], vec![])
}

fn output(name: &str, bays: Bays, (x, y): (u8, u8), answer: u64, after: &[&[u16]]) -> Written {
    let asked = about(bays.file, bays.marks, x);
    let call = call!(BayOutput, asked, states: bays.states.concat(), bay: bays.bay, y);
    let name = format!("bays: {name}");
    written(&name, call, answer, vec![], after.concat())
}

/// The first bay of D is quiet, the second waits with its last tick to come,
/// the third has just begun, the fourth is no state at all.
const QUIET: [u16; 5] = [0, 0, 0, 0, 0];
const DUE: [u16; 5] = [1, 3, 0, 0, 0];
const BEGUN: [u16; 5] = [1, 0, 0, 0, 0];
const NONE: [u16; 5] = [9, 9, 9, 9, 9];
const FOUR: [&[u16]; 4] = [&QUIET, &DUE, &BEGUN, &NONE];

fn of_d(bay: u32) -> Bays<'static> {
    Bays {
        file: D,
        marks: &[1; 8],
        states: &FOUR,
        bay,
    }
}

/// Each bay answers by its own state, and that alone moves.
fn ticks() -> Vec<Written> {
    let one_later = [1, 1, 0, 0, 0];
    let moved = |bay: usize, state: &'static [u16]| {
        let mut states = FOUR;
        states[bay] = state;
        states
    };
    const LATER: [u16; 5] = [1, 1, 0, 0, 0];
    assert_eq!(LATER, one_later);
    let under_two = output(
        "the third waits",
        of_d(2),
        (0, 0),
        gives(0),
        &moved(2, &LATER),
    );
    vec![
        output(
            "the first begins",
            of_d(0),
            (1, 0),
            gives(0),
            &moved(0, &BEGUN),
        ),
        output(
            "the second may not wait",
            of_d(1),
            (0, 0),
            gives(1),
            &moved(1, &QUIET),
        ),
        output(
            "the third may wait",
            of_d(2),
            (0, 0),
            gives(0),
            &moved(2, &LATER),
        ),
        Written {
            name: "bays, reading 2: the third waits".to_string(),
            call: under_two.call.under(2),
            ..under_two
        },
        input("the second", of_d(1), 1, gives(1)),
        input(
            "T: the last of eight",
            Bays {
                file: T,
                marks: &[1, 0],
                states: &[&NONE, &NONE, &NONE, &NONE, &NONE, &NONE, &NONE, &QUIET],
                bay: 7,
            },
            1,
            gives(0),
        ),
        input(
            "the only one",
            Bays {
                file: S,
                marks: &[1],
                states: &[&QUIET],
                bay: 0,
            },
            3,
            gives(1),
        ),
    ]
}

fn refused() -> Vec<Written> {
    let no_bay = |name, states: &[&[u16]], bay| {
        let bays = Bays {
            file: D,
            marks: &[1; 8],
            states,
            bay,
        };
        output(name, bays, (0, 0), 24, states)
    };
    let nine = [&QUIET[..]; 9];
    let s = |states: &'static [&'static [u16]], marks: &'static [u8]| Bays {
        file: S,
        marks,
        states,
        bay: 0,
    };
    vec![
        no_bay("24: bay 4 of four", &FOUR, 4),
        no_bay("24: bay 8", &FOUR, 8),
        no_bay("24: bay 256 is not bay 0", &FOUR, 256),
        no_bay("24: bay 65,536", &FOUR, 65_536),
        no_bay("24: the largest number", &FOUR, u32::MAX),
        no_bay("24: nine bays are no list", &nine, 0),
        no_bay("24: six numbers are no list", &[&QUIET, &[0]], 0),
        no_bay("24: four numbers are no list", &[&QUIET[..4]], 0),
        no_bay("24: an empty list", &[], 0),
        input("24: bay 4 of four", of_d(4), 1, 24),
        input("16: a bay that is no state", of_d(3), 1, 16),
        output("16: a bay that is no state", of_d(3), (1, 0), 16, &FOUR),
        output("16: mark 2", s(&[&QUIET], &[2]), (0, 0), 16, &[&QUIET]),
        output("15", of_d(0), (0, 2), 15, &FOUR),
        input("15", of_d(0), 2, 15),
        output("17: A with B", s(&[&QUIET], &[1]), (3, 0), 17, &[&QUIET]),
        input(
            "17: no rule",
            Bays {
                file: N,
                marks: &[1],
                states: &[&QUIET],
                bay: 0,
            },
            0,
            17,
        ),
    ]
}

/// 22, 1 to 9, 10, 24, 16, 15, 17.
fn in_order() -> Vec<Written> {
    let all_wrong = |file, marks, states, bay, answer| {
        let bays = Bays {
            file,
            marks,
            states,
            bay,
        };
        let name = format!("{answer} first");
        output(&name, bays, (255, 255), answer, states)
    };
    let odd: [&[u16]; 1] = [&[9; 7]];
    let unknown = all_wrong("05", &[], &[&[9; 7]], 9, 22);
    vec![
        Written {
            call: unknown.call.under(3),
            ..unknown
        },
        {
            let unknown = input("22 first", of_d(0), 1, 22);
            Written {
                call: unknown.call.under(0),
                ..unknown
            }
        },
        all_wrong("00", &[], &[&[9; 7]], 9, 1),
        all_wrong("00 00 02 00 FF 01 00 01 00 00 00", &[], &[&[9; 7]], 9, 9),
        all_wrong(D, &[1; 7], &[&[9; 7]], 9, 10),
        all_wrong(D, &[1; 8], &[&[9; 7]], 9, 24),
        all_wrong(D, &[1; 8], &[&NONE], 0, 16),
        all_wrong(D, &[1; 8], &[&QUIET], 0, 15),
        input(
            "10 before 24",
            Bays {
                file: D,
                marks: &[1; 7],
                states: &odd,
                bay: 9,
            },
            9,
            10,
        ),
    ]
}
