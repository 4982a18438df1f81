//! The meter on top of a station.

use super::halves::{gives, OVERFULL};
use super::*;
use crate::samples::*;

pub fn all() -> Vec<Written> {
    [set_up(), pulses(), totals(), full(), refused(), in_order()].concat()
}

/// Inputs A and P, outputs C and D; D not without P.
pub const METERED: &str = "02 41 50 02 43 44 00 01 00 00 02 \
    00 02 00 02 02 00 FF \
    00 00 00 00 00 00 00";

/// Input P, output D; P may not stand.
const NO_PULSE: &str = "01 50 01 44 00 01 00 00 02 \
    00 01 01 00 00 00 FF \
    00 00 00 00 00 00 00";

/// As D, with P for R and D for C: after P, D at latest on the fourth tick.
const DUE: &str = "01 50 01 44 01 00 03 02 00 00 00 04 \
    00 01 01 00 00 01 01 00 00 FF FF \
    00 00 00 00 00 01 00 00 00 FF FF \
    01 00 00 01 01 01 00 00 00 FF FF \
    01 00 00 01 00 00 01 00 00 00 02";

fn new(station: usize, totals: usize, register: u16, answer: u64) -> Written {
    let call = Call::MeterNew {
        station: vec![0xEEEE; station],
        totals: vec![77; totals],
        register,
    };
    let name = format!("a station of {station} numbers and {totals} totals");
    let (mut after, mut sums) = (vec![0xEEEE; station], vec![77; totals]);
    if answer == 0 {
        after[..6].copy_from_slice(&last(register));
        sums[..2].copy_from_slice(&[0, 0]);
    }
    written(&name, call, answer, vec![], after).with_totals(&sums)
}

fn set_up() -> Vec<Written> {
    vec![
        new(6, 2, 0, 0),
        new(6, 2, 65_530, 0),
        new(6, 2, 65_535, 0),
        new(5, 2, 1, 14),
        new(7, 2, 1, 0),
        new(0, 2, 1, 14),
        new(6, 1, 1, 14),
        new(6, 3, 1, 0),
        new(6, 0, 1, 14),
        new(5, 3, 1, 14),
        new(7, 1, 1, 14),
        new(8, 4, 65_535, 0),
    ]
}

fn input(
    name: &str,
    file: &str,
    marks: &[u8],
    station: &[u16],
    tick: (u16, u8),
    answer: u64,
) -> Written {
    let (register, x) = tick;
    let asked = about(file, marks, x);
    let call = call!(MeterInput, asked, station: station.to_vec(), register);
    written(&format!("meter: {name}"), call, answer, vec![], vec![])
}

fn last(register: u16) -> [u16; 6] {
    [0, 0, 0, 0, 0, register]
}

fn pulses() -> Vec<Written> {
    let metered =
        |name, from, to, x, found| input(name, METERED, &[1], &last(from), (to, x), gives(found));
    vec![
        metered("65,530 and then 4 are pulses", 65_530, 4, 0, 2),
        metered("one pulse", 7, 8, 0, 2),
        metered("one less is 65,535 pulses", 8, 7, 0, 2),
        metered("no pulse", 7, 7, 0, 0),
        metered("P as read is set back", 7, 7, 2, 0),
        metered("P as read is set back, and A stays", 7, 7, 3, 1),
        metered("P is set beside A", 7, 9, 1, 3),
        metered("P is set where it was", 7, 9, 2, 2),
        input("P is edited", NO_PULSE, &[1], &last(5), (6, 0), gives(0)),
        input(
            "P is edited as read",
            NO_PULSE,
            &[1],
            &last(5),
            (6, 1),
            gives(0),
        ),
        input("no P to edit", NO_PULSE, &[1], &last(5), (5, 1), gives(0)),
        input(
            "seven numbers: the sixth is the register",
            METERED,
            &[1],
            &[0, 0, 0, 0, 0, 7, 8],
            (7, 0),
            gives(0),
        ),
    ]
}

struct Tick<'a> {
    file: &'a str,
    marks: &'a [u8],
    station: &'a [u16],
    totals: &'a [u32],
    register: u16,
    x: u8,
    y: u8,
}

fn output(name: &str, tick: Tick, answer: u64, after: &[u16], sums: &[u32]) -> Written {
    let (station, totals) = (tick.station.to_vec(), tick.totals.to_vec());
    let asked = about(tick.file, tick.marks, tick.x);
    let call = call!(MeterOutput, asked, station, totals, register: tick.register, y: tick.y);
    let name = format!("meter: {name}");
    written(&name, call, answer, vec![], after.to_vec()).with_totals(sums)
}

fn refusal(name: &str, tick: Tick, answer: u64) -> Written {
    let (station, totals) = (tick.station.to_vec(), tick.totals.to_vec());
    output(name, tick, answer, &station, &totals)
}

/// From a register of 65,530 with the totals 100 and 20.
fn metered(register: u16, x: u8, y: u8) -> Tick<'static> {
    Tick {
        file: METERED,
        marks: &[1],
        station: &[0, 0, 0, 0, 0, 65_530],
        totals: &[100, 20],
        register,
        x,
        y,
    }
}

fn totals() -> Vec<Written> {
    let due = |station, y| Tick {
        file: DUE,
        marks: &[1; 8],
        station,
        totals: &[0, 0],
        register: 1,
        x: 0,
        y,
    };
    let waiting = [1, 2, 0, 0, 0, 65_535];
    let late = [1, 3, 0, 0, 0, 65_535];
    vec![
        output(
            "ten pulses billed",
            metered(4, 2, 2),
            gives(2),
            &last(4),
            &[110, 20],
        ),
        output(
            "ten pulses billed with C",
            metered(4, 2, 3),
            gives(3),
            &last(4),
            &[110, 20],
        ),
        output(
            "ten pulses unbilled",
            metered(4, 2, 0),
            gives(0),
            &last(4),
            &[100, 30],
        ),
        output(
            "ten pulses unbilled with C",
            metered(4, 3, 1),
            gives(1),
            &last(4),
            &[100, 30],
        ),
        output(
            "no pulses",
            metered(65_530, 0, 0),
            gives(0),
            &last(65_530),
            &[100, 20],
        ),
        output(
            "D edited away: unbilled, whatever was wanted",
            metered(4, 0, 2),
            gives(0),
            &last(4),
            &[100, 30],
        ),
        output(
            "D and C: D alone is edited away",
            metered(4, 1, 3),
            gives(1),
            &last(4),
            &[100, 30],
        ),
        output(
            "all but one pulse",
            metered(65_529, 2, 2),
            gives(2),
            &last(65_529),
            &[65_635, 20],
        ),
        output(
            "D put in: billed, though it was not wanted",
            due(&late, 0),
            gives(1),
            &last(1),
            &[2, 0],
        ),
        output(
            "waiting: the state moves with the register",
            due(&waiting, 0),
            gives(0),
            &[1, 3, 0, 0, 0, 1],
            &[0, 2],
        ),
        output(
            "nor may the third tick wait",
            due(&waiting, 0),
            gives(1),
            &last(1),
            &[2, 0],
        )
        .under(2),
        output(
            "what stands past the station and the totals stays",
            Tick {
                station: &[0, 0, 0, 0, 0, 65_530, 8, 9],
                totals: &[100, 20, 7],
                ..metered(4, 2, 2)
            },
            gives(2),
            &[0, 0, 0, 0, 0, 4, 8, 9],
            &[110, 20, 7],
        ),
        output(
            "the numbers past the totals are no totals",
            Tick {
                totals: &[u32::MAX - 10, 20, u32::MAX, u32::MAX],
                ..metered(4, 2, 2)
            },
            gives(2),
            &last(4),
            &[u32::MAX, 20, u32::MAX, u32::MAX],
        ),
    ]
}

/// 27 exactly where the total that would rise passes 4,294,967,295.
fn full() -> Vec<Written> {
    let near = |totals, register, y| Tick {
        file: METERED,
        marks: &[1],
        station: &[0, 0, 0, 0, 0, 65_530],
        totals,
        register,
        x: 2,
        y,
    };
    let most = u32::MAX;
    vec![
        output(
            "to the very end",
            near(&[most - 10, 3], 4, 2),
            gives(2),
            &last(4),
            &[most, 3],
        ),
        refusal("27: one more", near(&[most - 9, 3], 4, 2), 27),
        output(
            "unbilled to the end",
            near(&[3, most - 10], 4, 0),
            gives(0),
            &last(4),
            &[3, most],
        ),
        refusal("27: one more unbilled", near(&[3, most - 9], 4, 0), 27),
        output(
            "the other total is full",
            near(&[most, 3], 4, 0),
            gives(0),
            &last(4),
            &[most, 13],
        ),
        output(
            "the billed one is not",
            near(&[3, most], 4, 2),
            gives(2),
            &last(4),
            &[13, most],
        ),
        output(
            "full, and no pulse",
            near(&[most, most], 65_530, 2),
            gives(2),
            &last(65_530),
            &[most, most],
        ),
        refusal("27: full", near(&[most, most], 65_531, 2), 27),
        refusal(
            "27: full, 65,535 pulses",
            near(&[most, most], 65_529, 0),
            27,
        ),
    ]
}

/// P as an output, and D as an input.
const EXCHANGED: &str = "01 44 01 50 00 01 00 00 01 00 00 00 00 00 00 00";
const ONLY_P: &str = "01 50 01 43 00 01 00 00 01 00 00 00 00 00 00 00";
const ONLY_D: &str = "01 41 01 44 00 01 00 00 01 00 00 00 00 00 00 00";

fn refused() -> Vec<Written> {
    let mut all = Vec::new();
    for (name, file) in [
        ("exchanged", EXCHANGED),
        ("no D", ONLY_P),
        ("no P", ONLY_D),
        ("T", T),
    ] {
        let name = format!("26: {name}");
        all.push(input(&name, file, &[1, 1], &last(5), (6, 0), 26));
        let tick = Tick {
            file,
            marks: &[1, 1],
            ..metered(4, 0, 0)
        };
        all.push(refusal(&name, tick, 26));
    }
    // Only the second half writes the station.
    for (station, second) in [
        (&[0; 5][..], 14),
        (&[], 14),
        (&[1, 0, 0, 0, 0, 9], 16),
        (&[0, 1, 0, 0, 0, 9], 16),
        (&[0, 1, 0, 0, 0, 9, 0], 16),
    ] {
        let name = format!("{station:?}");
        all.push(input(&name, METERED, &[1], station, (6, 0), 16));
        let tick = Tick {
            station,
            ..metered(4, 0, 0)
        };
        all.push(refusal(&name, tick, second));
    }
    for totals in [&[1][..], &[]] {
        let tick = Tick {
            totals,
            ..metered(4, 0, 0)
        };
        all.push(refusal("14: fewer than two totals", tick, 14));
    }
    let nothing = "01 50 01 44 00 01 00 00 00";
    all.push(input("17: no rule", nothing, &[1], &last(5), (6, 0), 17));
    all.push(refusal(
        "17: no rule",
        Tick {
            file: nothing,
            ..metered(4, 0, 0)
        },
        17,
    ));
    all.push(refusal("15: x", metered(4, 4, 0), 15));
    all.push(refusal("15: y", metered(4, 0, 4), 15));
    all.push(input("15: x", METERED, &[1], &last(5), (6, 4), 15));
    all.push(input("16: mark 2", METERED, &[2], &last(5), (6, 4), 16));
    all
}

/// 22, 1 to 9, 26, 10, 14, 16, 15, 17, 27.
fn in_order() -> Vec<Written> {
    let full = &[u32::MAX, u32::MAX];
    let wrong = |file, marks, totals, station| Tick {
        file,
        marks,
        station,
        totals,
        register: 5,
        x: 255,
        y: 255,
    };
    let odd: [u16; 7] = [9; 7];
    vec![
        refusal("22 first", wrong("05", &[], &[], &odd), 22).under(3),
        input("22 first", "05", &[], &odd, (1, 255), 22).under(0),
        refusal("1", wrong("00", &[], &[], &odd), 1),
        refusal("9 before 26", wrong(OVERFULL, &[], &[], &odd), 9),
        input("9 before 26", OVERFULL, &[], &odd, (1, 255), 9),
        refusal("26 before 10", wrong(T, &[1], &[], &odd), 26),
        input("26 before 10", T, &[1], &odd, (1, 255), 26),
        refusal("10 before 14", wrong(METERED, &[], &[], &odd), 10),
        input("10 before 16", METERED, &[], &odd, (1, 255), 10),
        refusal("14 before 16", wrong(METERED, &[1], &[], &odd), 14),
        refusal("14 for a station", wrong(METERED, &[1], full, &[9; 5]), 14),
        refusal("16 before 15", wrong(METERED, &[1], full, &odd), 16),
        refusal("15 before 27", wrong(METERED, &[1], full, &[0; 6]), 15),
        refusal(
            "17 before 27",
            Tick {
                x: 1,
                y: 0,
                ..wrong(NO_PULSE, &[1], full, &[0; 6])
            },
            17,
        ),
        refusal(
            "27 last",
            Tick {
                x: 0,
                y: 0,
                ..wrong(NO_PULSE, &[1], full, &[0; 6])
            },
            27,
        ),
    ]
}
