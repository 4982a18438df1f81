//! A wrong file given to every function that takes one: refused by the number
//! of what is wrong in it, and nothing is written.

use super::meter::METERED;
use super::*;
use crate::samples::*;

pub fn all() -> Vec<Written> {
    let mut all = Vec::new();
    for (number, file) in WRONG_FILES {
        for call in calls() {
            all.push(refused(number, call.with_file(from_hex(file))));
        }
        all.push(refused(
            number,
            Call::Join {
                a: from_hex(S),
                b: from_hex(file),
                out: vec![FILLER; 40],
            },
        ));
    }
    all
}

/// One for each number.
const WRONG_FILES: [(u64, &str); 9] = [
    (1, "01"),
    (2, "05 41 42 43 44 45 00 00 01 00 00 00"),
    (3, "01 61 00 00 01 00 00 00"),
    (4, "00 00 01 00 00 01 00 00 00"),
    (5, "00 00 00 01 02 00 00"),
    (6, "00 00 00 01 00 00 01 00 00 00 00 00 00 01"),
    (
        7,
        "00 00 01 00 01 01 00 00 01 00 00 00 00 00 00 00 00 01 00 00",
    ),
    (8, "00 00 00 01 00 00 00 00"),
    (9, "00 00 02 00 FF 01 00 01 00 00 00"),
];

/// One call of each function that takes a file, which would not be refused
/// about T, or about a policy that has the signals of a meter.
fn calls() -> Vec<Call> {
    let (reading, file, state) = (FIRST_READING, || from_hex(T), || START.to_vec());
    let asked = |x| about(T, &[1, 0], x);
    let metered = |x| about(METERED, &[1], x);
    let index = || [vec![0, 2, 2], vec![0; 125]].concat();
    vec![
        Call::Prepare {
            reading,
            file: file(),
            marks: vec![FILLER; 2],
        },
        call!(Input, asked(1), state: state()),
        call!(Output, asked(0), state: state(), y: 1),
        Call::Run {
            reading,
            file: file(),
            marks: vec![1, 0],
            state: state(),
            events: vec![1, 17],
            released: vec![FILLER; 2],
        },
        Call::Join {
            a: file(),
            b: file(),
            out: vec![FILLER; 60],
        },
        Call::Index {
            file: file(),
            index: vec![0xEEEE; 128],
        },
        call!(InputIndexed, asked(1), state: state(), index: index()),
        call!(OutputIndexed, asked(0), state: state(), index: index(), y: 1),
        call!(BayInput, asked(1), states: vec![0; 15], bay: 2),
        call!(BayOutput, asked(0), states: vec![0; 15], bay: 2, y: 1),
        call!(MeterInput, metered(1), station: vec![0; 6], register: 9),
        call!(MeterOutput, metered(2), station: vec![0; 6], totals: vec![3, 4], register: 9, y: 2),
        Call::PrepareFast {
            reading,
            file: file(),
            marks: vec![FILLER; 2],
            work: [0, 1, 2, 3, 4].map(|_| vec![7; 2]),
        },
        Call::Clean {
            reading,
            file: file(),
            cleaned: vec![FILLER; 60],
            struck: vec![FILLER; 9],
        },
        call!(Why, asked(1), state: state(), y: 1),
        Call::Check { file: file() },
        Call::WhyRun {
            reading,
            file: file(),
            marks: vec![1, 0],
            state: state(),
            events: vec![1, 17],
            reasons: vec![7; 3],
            ticks: vec![7; 2],
            rests: vec![7; 2],
            prepared: vec![FILLER; 2],
            work: [0, 1, 2, 3, 4].map(|_| vec![7; 2]),
        },
    ]
}

fn refused(number: u64, call: Call) -> Written {
    let name = format!("{number}: a wrong file");
    let (bytes, state) = (call.lent_bytes().to_vec(), call.lent_state().to_vec());
    let totals = call.lent_totals().to_vec();
    let list = call.lent_list().to_vec();
    let reasons = call.lent_reasons().to_vec();
    let refused = written(&name, call, number, bytes, state);
    let refused = refused.with_totals(&totals).with_list(&list);
    refused.with_reasons(&reasons)
}

#[cfg(test)]
mod tests {
    use super::*;
    use crate::engine::{refusal_in, Model};

    /// Of T itself nothing is refused, so that it is the file alone.
    #[test]
    fn the_calls_are_proper() {
        for call in calls() {
            assert_eq!(refusal_in(call.make(&mut Model).answer), 0, "{call}");
        }
    }
}
