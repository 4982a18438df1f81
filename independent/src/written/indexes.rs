//! The rule index, and the halves that use it.

use super::halves::{gives, OVERFULL};
use super::*;
use crate::samples::*;

pub fn all() -> Vec<Written> {
    [built(), not_built(), used(), wrong(), in_order()].concat()
}

const INDEX_LENGTH: usize = 128;
const NUMBER_FILLER: u16 = 0xEEEE;

/// Three locations, of which the middle one has no rules.
const GAP: &str = "00 01 4B 00 03 00 00 00 00 03 \
    00 00 00 01 01 00 02 \
    00 00 00 00 00 00 00 \
    02 00 00 00 00 00 00";

/// Two locations; the start has no rules.
const LATE_RULES: &str = "00 00 00 02 00 00 00 02 \
    01 00 00 00 00 00 00 \
    01 00 00 00 00 00 01";

/// So many numbers at the beginning, then 0.
fn index_of(first: &[u16]) -> Vec<u16> {
    let mut index = first.to_vec();
    index.resize(INDEX_LENGTH, 0);
    index
}

fn index(name: &str, file: &str, lent: usize, answer: u64, after: Vec<u16>) -> Written {
    let call = Call::Index {
        file: from_hex(file),
        index: vec![NUMBER_FILLER; lent],
    };
    let mut state = after;
    state.resize(lent, NUMBER_FILLER);
    written(&format!("index: {name}"), call, answer, vec![], state)
}

fn built() -> Vec<Written> {
    let sixty_four = repeated("00 00 00 40", "00", 64) + " 00 01 3F 00 00 00 00 00 00";
    let mut last = vec![0; 126];
    last.extend([0, 1]);
    let full = |name, file, first: &[u16]| index(name, file, INDEX_LENGTH, 0, index_of(first));
    vec![
        full("S", S, &[0, 3]),
        full("D", D, &[0, 2, 2, 2]),
        full("T, where location 1 has no rules", T, &[0, 2, 2, 0]),
        full("K", K, &[0, 2]),
        full("N, no rules at all", N, &[0, 0]),
        full(
            "a location without rules between two",
            GAP,
            &[0, 2, 2, 0, 2, 1],
        ),
        full("a start without rules", LATE_RULES, &[0, 0, 0, 2]),
        full("the last of 64 locations", &sixty_four, &last),
        index(
            "what is lent past it stays",
            D,
            131,
            0,
            index_of(&[0, 2, 2, 2]),
        ),
    ]
}

fn not_built() -> Vec<Written> {
    let refused = |name, file, lent, refusal| index(name, file, lent, refusal, vec![]);
    vec![
        refused("14: one number too few", S, 127, 14),
        refused("14: nothing lent", S, 0, 14),
        refused("1 before 14", "00", 0, 1),
        refused("8 before 14", "00 00 00 01 00 00 00 00", 3, 8),
        refused("9 before 14", OVERFULL, 127, 9),
        refused("9", OVERFULL, 128, 9),
    ]
}

fn input(name: &str, file: &str, index: &[u16], marks: &[u8], x: u8, answer: u64) -> Written {
    let asked = about(file, marks, x);
    let call = call!(InputIndexed, asked, state: START.to_vec(), index: index.to_vec());
    written(&format!("indexed: {name}"), call, answer, vec![], vec![])
}

fn output(
    name: &str,
    file: &str,
    index: &[u16],
    (marks, state): (&[u8], &[u16]),
    (x, y): (u8, u8),
    answer: u64,
    after: &[u16],
) -> Written {
    let asked = about(file, marks, x);
    let call = call!(OutputIndexed, asked, state: state.to_vec(), index: index.to_vec(), y);
    let name = format!("indexed: {name}");
    written(&name, call, answer, vec![], after.to_vec())
}

fn used() -> Vec<Written> {
    let waiting = [1, 3, 0, 0, 0];
    let (s, d, t) = (
        index_of(&[0, 3]),
        index_of(&[0, 2, 2, 2]),
        index_of(&[0, 2, 2, 0]),
    );
    let under_two = output(
        "D",
        D,
        &d,
        (&[1; 8], &[1, 2, 0, 0, 0]),
        (0, 0),
        gives(1),
        &START,
    );
    vec![
        input("S: 3 becomes 1", S, &s, &[1], 3, gives(1)),
        input("S keeps 2", S, &s, &[1], 2, gives(2)),
        input("T: 1 becomes 0", T, &t, &[1, 0], 1, gives(0)),
        input(
            "T: the marks are read as given",
            T,
            &t,
            &[1, 1],
            1,
            gives(1),
        ),
        output(
            "S: no R with B",
            S,
            &s,
            (&[1], &START),
            (2, 1),
            gives(0),
            &START,
        ),
        output(
            "D: the fourth tick may not wait",
            D,
            &d,
            (&[1; 8], &waiting),
            (1, 0),
            gives(1),
            &START,
        ),
        Written {
            name: "indexed, reading 2: D: nor may the third".to_string(),
            call: under_two.call.under(2),
            ..under_two
        },
        output(
            "17: A with B has no output",
            S,
            &s,
            (&[1], &START),
            (3, 0),
            17,
            &START,
        ),
        input("16: mark 2", S, &s, &[2], 4, 16),
        input("15: x 4 in S", S, &s, &[1], 4, 15),
        input("17: no rule", N, &index_of(&[0, 0]), &[1], 0, 17),
    ]
}

/// An index that is wrong in one number, or in its length, is refused, also
/// where the half would not come to look at that number.
fn wrong() -> Vec<Written> {
    let right = index_of(&[0, 2, 2, 2]);
    let change = |place: usize, number: u16| {
        let mut index = right.clone();
        index[place] = number;
        index
    };
    let short = right[..127].to_vec();
    let long = [right.clone(), vec![0]].concat();
    let indexes = [
        ("the first rule of location 0", change(0, 1)),
        ("one rule more at location 0", change(1, 3)),
        ("one rule less at location 0", change(1, 1)),
        ("the first rule of location 1", change(2, 1)),
        ("one rule less at location 1", change(3, 1)),
        ("more rules than there are", change(3, 65_535)),
        ("a first rule far past the file", change(0, 65_535)),
        ("a number past the locations", change(4, 4)),
        ("a count past the locations", change(5, 1)),
        ("the last number", change(127, 1)),
        ("127 numbers", short),
        ("129 numbers", long),
        ("four numbers", right[..4].to_vec()),
        ("no number", vec![]),
        ("the index of S", index_of(&[0, 3])),
        ("all 0", vec![0; INDEX_LENGTH]),
    ];
    let mut all = Vec::new();
    for (name, index) in indexes {
        let name = format!("28: {name}");
        all.push(input(&name, D, &index, &[1; 8], 1, 28));
        let at = (&[1; 8][..], &START[..]);
        all.push(output(&name, D, &index, at, (1, 0), 28, &START));
    }
    let empty = index_of(&[0, 2, 0, 0]);
    all.push(input(
        "28: a location without rules, whose first is 0",
        T,
        &empty,
        &[1, 0],
        1,
        28,
    ));
    all
}

/// 22, 1 to 9, 28, 10, 16, 15, 17.
fn in_order() -> Vec<Written> {
    let far = [9; 5];
    let (right, none) = (index_of(&[0, 2, 2, 2]), vec![]);
    let all_wrong = |file, index: &[u16], answer| {
        let name = format!("{answer} first");
        output(&name, file, index, (&[], &far), (255, 255), answer, &far)
    };
    let unknown = input("22 before 1", "05", &none, &[], 255, 22);
    vec![
        Written {
            call: unknown.call.under(3),
            ..unknown
        },
        input("1 before 28", "00", &none, &[], 255, 1),
        input("9 before 28", OVERFULL, &none, &[], 255, 9),
        all_wrong(OVERFULL, &none, 9),
        all_wrong("00 00 00 01 00 00 00 00", &none, 8),
        all_wrong(D, &none, 28),
        all_wrong(D, &right, 10),
        input("28 before 10", D, &none, &[1; 7], 1, 28),
        input("10 with the right index", D, &right, &[1; 7], 9, 10),
        output("16", D, &right, (&[1; 8], &far), (9, 9), 16, &far),
        output("15", D, &right, (&[1; 8], &START), (9, 9), 15, &START),
        {
            let unknown = all_wrong(D, &right, 22);
            Written {
                call: unknown.call.under(0),
                ..unknown
            }
        },
    ]
}
