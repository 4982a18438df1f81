//! Joins.

use super::*;
use crate::samples::*;

pub fn all() -> Vec<Written> {
    [made(), at_limits(), refused()].concat()
}

fn join(name: &str, a: &str, b: &str, lent: usize, answer: u64, out: &[u8]) -> Written {
    let call = Call::Join {
        a: from_hex(a),
        b: from_hex(b),
        out: filled(&[], lent),
    };
    written(name, call, answer, filled(out, lent), vec![])
}

/// A join into a slice just long enough.
pub fn gives(name: &str, a: &str, b: &str, joined: &str) -> Written {
    let out = from_hex(joined);
    join(name, a, b, out.len(), (out.len() as u64) << 8, &out)
}

fn does_not(number: u64, name: &str, a: &str, b: &str) -> Written {
    join(name, a, b, 6_000, number, &[])
}

const S_S: &str = "02 41 42 01 52 00 01 00 00 09 \
    00 03 03 00 00 00 FF \
    00 03 03 01 01 00 FF \
    00 03 03 00 00 00 FF \
    00 03 03 01 01 00 FF \
    00 02 02 01 01 00 FF \
    00 02 02 01 01 00 FF \
    00 03 03 00 00 00 FF \
    00 02 02 01 01 00 FF \
    00 00 00 00 00 00 00";

const T_T: &str = "01 41 01 42 00 04 00 00 00 00 00 04 \
    00 01 01 00 00 00 03 \
    00 01 01 00 00 00 02 \
    00 01 01 00 00 00 01 \
    00 00 00 00 00 00 00";

pub const D_D: &str = "01 52 01 43 02 00 03 00 03 04 00 00 00 00 00 0E \
    00 01 01 00 00 03 03 00 00 FF FF 00 00 FF FF \
    00 01 01 00 00 03 02 00 00 FF FF 00 00 FF FF \
    00 01 01 00 00 03 01 00 00 FF FF 00 00 FF FF \
    00 00 00 00 00 03 00 00 00 FF FF 00 00 FF FF \
    01 01 01 01 01 03 02 00 00 FF FF 00 00 FF FF \
    01 01 01 01 00 01 03 00 00 FF FF 00 00 00 02 \
    01 00 00 01 01 03 00 00 00 FF FF 00 00 FF FF \
    01 00 00 01 00 01 01 00 00 FF FF 00 00 00 02 \
    02 01 01 01 01 03 01 00 00 FF FF 00 00 FF FF \
    02 00 00 01 01 03 00 00 00 FF FF 00 00 FF FF \
    02 01 01 01 00 02 03 00 00 00 02 00 00 FF FF \
    02 00 00 01 00 02 02 00 00 00 02 00 00 FF FF \
    03 00 00 01 01 03 00 00 00 FF FF 00 00 FF FF \
    03 00 00 01 00 00 03 00 00 00 02 00 00 00 02";

/// With the signals of S: permits everything.
const UNIT_S: &str = "02 41 42 01 52 00 01 00 00 01 00 00 00 00 00 00 00";

/// Two locations, the first leading to the second.
const ONWARD: &str = "00 00 00 02 00 00 00 01 00 00 00 00 00 00 01";
/// One location, in which everything is a violation.
const NEVER: &str = "00 00 00 01 00 00 01 00 00 00 00 00 00 FF";
/// Both together, in either order.
const NEVER_ONWARD: &str = "00 00 00 02 00 00 00 01 00 00 00 00 00 00 FF";

fn made() -> Vec<Written> {
    let length = from_hex(T_T).len();
    vec![
        gives("S with itself", S, S, S_S),
        gives("T with itself", T, T, T_T),
        gives("D with itself", D, D, D_D),
        gives("N with itself", N, N, N),
        gives("S with the unit", S, UNIT_S, S),
        gives("the unit with S", UNIT_S, S, S),
        gives("a violation of B", ONWARD, NEVER, NEVER_ONWARD),
        gives("a violation of A", NEVER, ONWARD, NEVER_ONWARD),
        join(
            "bytes past the file stay",
            T,
            T,
            length + 3,
            (length as u64) << 8,
            &from_hex(T_T),
        ),
        join("14: one byte too few", T, T, length - 1, 14, &[]),
        join("14: no byte", N, N, 0, 14, &[]),
    ]
}

/// No signals and no clocks; `count` locations without rules.
fn bare(count: usize) -> String {
    format!(
        "{} 00 00",
        repeated(&format!("00 00 00 {count:02X}"), "00", count)
    )
}

/// One location with clocks of these ceilings and no rules.
fn clocks(ceilings: &[u16]) -> String {
    let words: Vec<String> = ceilings
        .iter()
        .map(|ceiling| format!("{ceiling:04X}"))
        .collect();
    format!(
        "00 00 {:02X} {} 01 00 00 00",
        ceilings.len(),
        words.join(" ")
    )
}

/// One input, one location, and rules, each as often as it says.
fn rules(parts: &[(&str, usize)]) -> String {
    let count: usize = parts.iter().map(|part| part.1).sum();
    let head = format!("01 41 00 00 01 00 {count:04X}");
    parts
        .iter()
        .fold(head, |file, (rule, times)| repeated(&file, rule, *times))
}

fn same_rules(rule: &str, count: usize) -> String {
    rules(&[(rule, count)])
}

const ALL: &str = "00 00 00 00 00 00 00";
const IF_SET: &str = "00 01 01 00 00 00 00";
const IF_NOT: &str = "00 01 00 00 00 00 00";

fn at_limits() -> Vec<Written> {
    vec![
        gives("64 locations", &bare(8), &bare(8), &bare(64)),
        does_not(13, "65 locations", &bare(13), &bare(5)),
        gives(
            "four clocks",
            &clocks(&[1, 2, 3]),
            &clocks(&[4]),
            &clocks(&[1, 2, 3, 4]),
        ),
        does_not(13, "five clocks", &clocks(&[1, 2, 3]), &clocks(&[4, 5])),
        gives(
            "256 rules",
            &same_rules(ALL, 16),
            &same_rules(ALL, 16),
            &same_rules(ALL, 256),
        ),
        does_not(13, "272 rules", &same_rules(ALL, 17), &same_rules(ALL, 16)),
        gives(
            "272 pairs, all of which contradict",
            &same_rules(IF_SET, 17),
            &same_rules(IF_NOT, 16),
            "01 41 00 00 01 00 00 00",
        ),
        gives(
            "272 pairs, of which 16 contradict",
            &rules(&[(ALL, 16), (IF_SET, 1)]),
            &same_rules(IF_NOT, 16),
            &same_rules(IF_NOT, 256),
        ),
        does_not(
            13,
            "272 pairs, of which 15 contradict",
            &rules(&[(ALL, 16), (IF_SET, 1)]),
            &rules(&[(IF_NOT, 15), (ALL, 1)]),
        ),
        gives(
            "65,536 states",
            &clocks(&[255]),
            &clocks(&[255]),
            &clocks(&[255, 255]),
        ),
        does_not(13, "65,792 states", &clocks(&[255]), &clocks(&[256])),
        join("13 before 14", &bare(13), &bare(5), 0, 13, &[]),
    ]
}

fn refused() -> Vec<Written> {
    let tagged = |inputs: &str, outputs: &str| format!("{inputs} {outputs} 00 01 00 00 00");
    vec![
        does_not(12, "other tags", S, D),
        does_not(
            12,
            "another order",
            &tagged("02 41 42", "00"),
            &tagged("02 42 41", "00"),
        ),
        does_not(
            12,
            "fewer tags",
            &tagged("02 41 42", "00"),
            &tagged("01 41", "00"),
        ),
        does_not(
            12,
            "an input as an output",
            &tagged("01 41", "00"),
            &tagged("00", "01 41"),
        ),
        does_not(
            12,
            "the same letters, parted otherwise",
            &tagged("02 41 42", "01 43"),
            &tagged("01 41", "02 42 43"),
        ),
        does_not(1, "A is refused first", "", "05"),
        does_not(2, "B is refused after A", N, "05"),
        does_not(
            9,
            "9 of A before 1 of B",
            "00 00 02 00 FF 01 00 01 00 00 00",
            "",
        ),
        does_not(8, "8 of B before 12", S, "00 00 00 01 00 00 00 00"),
        join("12 before 14", S, D, 0, 12, &[]),
        does_not(12, "12 before 13", &bare(13), &tagged_bare(5)),
    ]
}

/// As `bare`, with one input.
fn tagged_bare(count: usize) -> String {
    format!(
        "{} 00 00",
        repeated(&format!("01 41 00 00 {count:02X}"), "00", count)
    )
}
