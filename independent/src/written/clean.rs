//! Cleaning.

use super::files::S_BESIDE;
use super::halves::OVERFULL;
use super::*;
use crate::samples::*;

pub fn all() -> Vec<Written> {
    [nothing(), struck(), by_reading(), again(), refused()].concat()
}

/// What a call with slices of these lengths answers, and what it writes in both.
fn call(
    name: &str,
    file: &str,
    (length, listed): (usize, usize),
    answer: u64,
    (cleaned, list): (&[u8], &[u8]),
) -> Written {
    let call = Call::Clean {
        reading: FIRST_READING,
        file: from_hex(file),
        cleaned: filled(&[], length),
        struck: filled(&[], listed),
    };
    let name = format!("clean: {name}");
    written(&name, call, answer, filled(cleaned, length), vec![]).with_list(&filled(list, listed))
}

/// Into slices with `more` bytes past what is needed.
fn clean_with(name: &str, file: &str, cleaned: &str, list: &str, more: usize) -> Written {
    let (bytes, list) = (from_hex(cleaned), from_hex(list));
    let answer = (bytes.len() as u64) << 8 | (list.len() as u64) << 32;
    let lengths = (bytes.len() + more, list.len() + more);
    call(name, file, lengths, answer, (&bytes, &list))
}

fn clean(name: &str, file: &str, cleaned: &str, list: &str) -> Written {
    clean_with(name, file, cleaned, list, 0)
}

/// Of the samples every location is entered and every rule decides something.
fn nothing() -> Vec<Written> {
    vec![
        clean("S", S, S, ""),
        clean("D", D, D, ""),
        clean("T: what has no future stays", T, T, ""),
        clean("K", K, K, ""),
        clean("N", N, N, ""),
        clean_with("bytes past them stay", T, T, "", 7),
        clean("S", S, S, "").under(2),
        clean("D", D, D, "").under(2),
    ]
}

/// Five locations. 1 is entered by a rule that never decides, since the rule
/// before it takes all; 3 by 1 alone; 2 and 4 from the start. 4 must be left.
const HALF_USED: &str = "01 41 01 42 00 05 00 01 00 01 01 00 08 \
    00 01 01 00 00 00 02 \
    00 00 00 01 01 00 04 \
    00 00 00 01 00 00 00 \
    00 00 00 00 00 00 01 \
    01 00 00 00 00 00 03 \
    02 00 00 00 00 00 FF \
    03 00 00 00 00 00 01 \
    04 00 00 00 00 00 02";

/// 2 and 4 become 1 and 2.
const HALF_CLEANED: &str = "01 41 01 42 00 03 00 00 01 00 05 \
    00 01 01 00 00 00 01 \
    00 00 00 01 01 00 02 \
    00 00 00 01 00 00 00 \
    01 00 00 00 00 00 FF \
    02 00 00 00 00 00 01";

/// The locations 1 and 3, the rules 3, 4 and 6.
const HALF_LIST: &str = "01 00 01 01 00 03 03 00 03 02 00 04 02 00 06";

/// Rules after one that takes all, and one whose bound never holds since the
/// clock is set back each tick; the violation decides something.
const CLOCKED: &str = "01 41 00 01 00 05 01 00 00 04 \
    00 00 00 00 00 01 00 00 02 FF FF \
    00 01 01 00 00 00 FF 00 00 FF FF \
    00 00 00 00 00 01 00 00 00 00 04 \
    00 00 00 00 00 00 00 00 00 FF FF";

const CLOCKED_CLEANED: &str = "01 41 00 01 00 05 01 00 00 02 \
    00 01 01 00 00 00 FF 00 00 FF FF \
    00 00 00 00 00 01 00 00 00 00 04";

fn struck() -> Vec<Written> {
    vec![
        clean("S with a location beside", S_BESIDE, S, "01 00 01"),
        clean("half of it", HALF_USED, HALF_CLEANED, HALF_LIST),
        clean_with(
            "half of it, bytes past it stay",
            HALF_USED,
            HALF_CLEANED,
            HALF_LIST,
            3,
        ),
        clean("half of it", HALF_USED, HALF_CLEANED, HALF_LIST).under(2),
        clean(
            "a clock that is set back",
            CLOCKED,
            CLOCKED_CLEANED,
            "03 00 00 03 00 03",
        ),
        clean(
            "a clock that is set back",
            CLOCKED,
            CLOCKED_CLEANED,
            "03 00 00 03 00 03",
        )
        .under(2),
        clean(
            "a start without rules",
            LATE,
            LATE_CLEANED,
            "01 00 01 02 00 00 02 00 01",
        ),
        clean("a rule that stands twice", TWICE, ONCE, "03 00 01"),
        clean(
            "a rule number above 255",
            &many_rules(),
            ONCE,
            &many_struck(),
        ),
    ]
}

const LATE: &str = "00 00 00 02 01 00 00 02 \
    01 00 00 00 00 00 00 \
    01 00 00 00 00 00 01";
const LATE_CLEANED: &str = "00 00 00 01 01 00 00";

const TWICE: &str = "00 00 00 01 00 00 02 \
    00 00 00 00 00 00 00 \
    00 00 00 00 00 00 00";
const ONCE: &str = "00 00 00 01 00 00 01 00 00 00 00 00 00 00";

/// The one rule 256 times.
fn many_rules() -> String {
    repeated("00 00 00 01 00 01 00", "00 00 00 00 00 00 00", 256)
}

fn many_struck() -> String {
    (1..256)
        .map(|number| format!("03 00 {number:02X} "))
        .collect()
}

/// One rule, which sets the clock back and holds for 0 only; then one that
/// leads to location 1. Under reading 1 the clock is always 0 when it is read,
/// under reading 2 it is always 1.
const AT_NONE: &str = "00 00 01 00 02 02 00 01 00 03 \
    00 00 00 00 00 01 00 00 00 00 00 \
    00 00 00 00 00 01 01 00 00 FF FF \
    01 00 00 00 00 00 00 00 00 FF FF";
const AT_NONE_FIRST: &str = "00 00 01 00 02 01 00 00 01 \
    00 00 00 00 00 01 00 00 00 00 00";
const AT_NONE_SECOND: &str = "00 00 01 00 02 02 00 01 00 02 \
    00 00 00 00 00 01 01 00 00 FF FF \
    01 00 00 00 00 00 00 00 00 FF FF";

/// "The caller names the reading for all that follows."
fn by_reading() -> Vec<Written> {
    vec![
        clean(
            "at 0 only",
            AT_NONE,
            AT_NONE_FIRST,
            "01 00 01 03 00 01 02 00 02",
        ),
        clean("at 0 only", AT_NONE, AT_NONE_SECOND, "03 00 00").under(2),
    ]
}

/// "Cleaning a cleaned policy strikes nothing."
fn again() -> Vec<Written> {
    vec![
        clean("again", HALF_CLEANED, HALF_CLEANED, ""),
        clean("again", CLOCKED_CLEANED, CLOCKED_CLEANED, ""),
        clean("again", LATE_CLEANED, LATE_CLEANED, ""),
        clean("again", AT_NONE_SECOND, AT_NONE_SECOND, "").under(2),
    ]
}

fn refusal(name: &str, file: &str, lengths: (usize, usize), answer: u64) -> Written {
    call(name, file, lengths, answer, (&[], &[]))
}

/// Nothing is written in both. HALF_CLEANED has 46 bytes and its list 15.
fn refused() -> Vec<Written> {
    vec![
        refusal("14: the policy", HALF_USED, (45, 15), 14),
        refusal("14: the list", HALF_USED, (46, 14), 14),
        refusal("14: both", HALF_USED, (45, 14), 14),
        refusal("14: nothing lent", HALF_USED, (0, 0), 14),
        refusal("14: no list", HALF_USED, (6_000, 0), 14),
        refusal("14: no policy", HALF_USED, (0, 1_000), 14),
        refusal("14: one byte too few for S itself", S, (30, 0), 14),
        refusal("1 before 14", "00", (0, 0), 1),
        refusal("9 before 14", OVERFULL, (0, 0), 9),
        refusal("22 first", "05", (0, 0), 22).under(3),
        refusal("22 first", HALF_USED, (46, 15), 22).under(0),
    ]
}
