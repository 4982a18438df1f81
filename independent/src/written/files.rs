//! Prepare: the samples, and a wrong file for every way to be wrong.

use super::*;
use crate::samples::*;

pub fn all() -> Vec<Written> {
    [
        samples(),
        cut_short(),
        counts(),
        tags(),
        ceilings_and_locations(),
        rule_heads(),
        bounds(),
        whole_files(),
        verdicts(),
    ]
    .concat()
}

/// The answer of prepare when nothing is refused; there is a mark for each
/// state.
pub fn found(verdict: u64, marks: &[u8]) -> u64 {
    let live = marks.iter().filter(|&&mark| mark == 1).count();
    verdict << 8 | (marks.len() as u64) << 16 | (live as u64) << 40
}

pub fn prepare(name: &str, file: &str, lent: usize, answer: u64, marks: &[u8]) -> Written {
    let call = Call::Prepare {
        reading: FIRST_READING,
        file: from_hex(file),
        marks: filled(&[], lent),
    };
    written(name, call, answer, filled(marks, lent), vec![])
}

/// With as many marks lent as there are states.
pub fn marked(name: &str, file: &str, verdict: u64, marks: &[u8]) -> Written {
    prepare(name, file, marks.len(), found(verdict, marks), marks)
}

/// The same where the start does not live.
pub fn hopeless(name: &str, file: &str, marks: &[u8]) -> Written {
    prepare(name, file, marks.len(), 11, marks)
}

/// A file refused before any mark is written. The mark slice is empty, so
/// that each of these also shows that the number comes before 10.
fn refused(number: u64, name: &str, file: &str) -> Written {
    prepare(name, file, 0, number, &[])
}

fn samples() -> Vec<Written> {
    vec![
        marked("case 5: S", S, 0, &[1]),
        marked("case 6: D", D, 0, &[1; 8]),
        marked("case 8: T", T, 1, &[1, 0]),
        hopeless("case 10: N", N, &[0]),
        marked("K", K, 0, &[1; 4]),
        prepare(
            "bytes past the marks stay",
            T,
            5,
            found(1, &[1, 0]),
            &[1, 0],
        ),
        prepare("bytes past the marks stay with 11", N, 3, 11, &[0]),
        prepare("10: one mark too few", D, 7, 10, &[]),
        prepare("10: no mark", S, 0, 10, &[]),
        prepare("10 before 11", N, 0, 10, &[]),
    ]
}

fn cut_short() -> Vec<Written> {
    vec![
        refused(1, "nothing at all", ""),
        refused(1, "inputs missing", "01"),
        refused(1, "one input of two", "02 41"),
        refused(1, "no output count", "00"),
        refused(1, "outputs missing", "00 01"),
        refused(1, "no clock count", "00 00"),
        refused(1, "ceiling missing", "00 00 01"),
        refused(1, "half a ceiling", "00 00 01 00"),
        refused(1, "one ceiling of two", "00 00 02 00 03"),
        refused(1, "no location count", "00 00 00"),
        refused(1, "location missing", "00 00 00 01"),
        refused(1, "one location of two", "00 00 00 02 00"),
        refused(1, "no rule count", "00 00 00 01 00"),
        refused(1, "half a rule count", "00 00 00 01 00 00"),
        refused(1, "rule missing", "00 00 00 01 00 00 01"),
        refused(
            1,
            "six bytes of a rule",
            "00 00 00 01 00 00 01 00 00 00 00 00 00",
        ),
        refused(
            1,
            "bounds one byte short",
            "00 00 01 00 03 01 00 00 01 00 00 00 00 00 00 00 00 00 FF",
        ),
        refused(1, "256 rules promised, none there", "00 00 00 01 00 01 00"),
        // The length of a section comes before its contents.
        refused(1, "a wrong tag in a short section", "02 61"),
        refused(1, "a wrong ceiling in a short section", "00 00 02 00 00"),
        refused(
            1,
            "a wrong location byte in a short section",
            "00 00 00 02 07",
        ),
        refused(
            1,
            "a wrong rule in a short section",
            "00 00 00 01 00 00 02 FF 00 00 00 00 00 00",
        ),
    ]
}

fn counts() -> Vec<Written> {
    vec![
        refused(2, "five inputs, none there", "05"),
        refused(2, "255 inputs", "FF"),
        refused(
            2,
            "five inputs, all there",
            "05 41 42 43 44 45 00 00 01 00 00 00",
        ),
        refused(2, "five outputs", "00 05"),
        refused(2, "five clocks", "00 00 05"),
        refused(2, "no locations", "00 00 00 00"),
        refused(2, "no locations, the rest there", "00 00 00 00 00 00"),
        refused(2, "65 locations", "00 00 00 41"),
        refused(2, "257 rules", "00 00 00 01 00 01 01"),
        refused(2, "65,535 rules", "00 00 00 01 00 FF FF"),
    ]
}

fn tags() -> Vec<Written> {
    vec![
        refused(3, "the byte before A", "01 40 00 00 01 00 00 00"),
        refused(3, "the byte after Z", "01 5B 00 00 01 00 00 00"),
        refused(3, "a small letter", "00 01 61 00 01 00 00 00"),
        refused(3, "an input twice", "02 41 41 00 00 01 00 00 00"),
        refused(3, "an output twice", "00 03 41 42 41 00 01 00 00 00"),
        refused(
            3,
            "an input as an output",
            "02 41 42 02 43 42 00 01 00 00 00",
        ),
        refused(3, "before the next count", "01 61 05"),
        hopeless("A and Z are allowed", "01 41 01 5A 00 01 00 00 00", &[0]),
    ]
}

fn ceilings_and_locations() -> Vec<Written> {
    let highest = "00 00 01 03 E9 01 00 00 00";
    vec![
        refused(4, "ceiling 0", "00 00 01 00 00 01 00 00 00"),
        refused(4, "ceiling 1,002", "00 00 01 03 EA 01 00 00 00"),
        refused(
            4,
            "second ceiling 65,535",
            "00 00 02 00 01 FF FF 01 00 00 00",
        ),
        refused(4, "before the next count", "00 00 01 00 00 00"),
        hopeless("ceiling 1,001", highest, &[0; 1_002]),
        refused(5, "location byte 2", "00 00 00 01 02 00 00"),
        refused(
            5,
            "second location byte 2 after a 1",
            "00 00 00 02 01 02 00 00",
        ),
        hopeless("location byte 1", "00 00 00 01 01 00 00", &[0]),
        refused(5, "last location byte 255", "00 00 00 03 00 00 FF 00 00"),
        refused(5, "before the rule count", "00 00 00 01 07 01 01"),
    ]
}

/// One input, one output, a clock with ceiling 3, two locations, one rule.
fn one_rule(rule: &str) -> String {
    format!("01 41 01 42 01 00 03 02 00 00 00 01 {rule}")
}

fn two_rules(first: &str, second: &str) -> String {
    format!("01 41 01 42 01 00 03 02 00 00 00 02 {first} {second}")
}

fn rule_heads() -> Vec<Written> {
    let wrong = |name: &str, rule: &str| refused(6, name, &one_rule(rule));
    let good = one_rule("00 01 01 01 01 01 01 00 00 FF FF");
    vec![
        hopeless("the rule that the others spoil", &good, &[0; 8]),
        wrong("source 2 of two", "02 01 01 01 01 01 01 00 00 FF FF"),
        wrong("source 255", "FF 01 01 01 01 01 01 00 00 FF FF"),
        wrong(
            "input care beyond the inputs",
            "00 03 01 01 01 01 01 00 00 FF FF",
        ),
        wrong(
            "input care in the high bits",
            "00 11 01 01 01 01 01 00 00 FF FF",
        ),
        wrong(
            "input value outside its care",
            "00 00 01 01 01 01 01 00 00 FF FF",
        ),
        wrong(
            "input value beyond the inputs",
            "00 01 02 01 01 01 01 00 00 FF FF",
        ),
        wrong(
            "output care beyond the outputs",
            "00 01 01 02 00 01 01 00 00 FF FF",
        ),
        wrong(
            "output value outside its care",
            "00 01 01 00 01 01 01 00 00 FF FF",
        ),
        wrong(
            "reset beyond the clocks",
            "00 01 01 01 01 02 01 00 00 FF FF",
        ),
        wrong("target 2 of two", "00 01 01 01 01 01 02 00 00 FF FF"),
        wrong("target 254", "00 01 01 01 01 01 FE 00 00 FF FF"),
        refused(
            6,
            "input care without inputs",
            "00 00 00 01 00 00 01 00 01 00 00 00 00 00",
        ),
        refused(
            6,
            "reset without clocks",
            "00 00 00 01 00 00 01 00 00 00 00 00 01 00",
        ),
        refused(
            6,
            "sources fall",
            &two_rules(
                "01 00 00 00 00 00 00 00 00 FF FF",
                "00 00 00 00 00 00 00 00 00 FF FF",
            ),
        ),
        wrong("6 before 7 in one rule", "02 00 00 00 00 00 00 00 02 00 01"),
        refused(
            6,
            "6 of the first before 7 of the second",
            &two_rules(
                "00 00 00 00 00 02 00 00 00 FF FF",
                "00 00 00 00 00 00 00 00 02 00 01",
            ),
        ),
        refused(
            6,
            "6 before 8",
            &one_rule("00 00 00 00 00 00 02 00 00 FF FF 00"),
        ),
    ]
}

fn bounds() -> Vec<Written> {
    let bounded = |bounds: &str| one_rule(&format!("00 00 00 00 00 00 00 {bounds}"));
    let wrong = |name: &str, bounds: &str| refused(7, name, &bounded(bounds));
    // Stays in location 0 under a bound; location 1 has no rule. With the
    // clock never reset, one bound leaves the late states a future and the
    // other none.
    let at_ceiling = bounded("00 03 FF FF");
    let below = bounded("00 02 00 02");
    vec![
        hopeless("low at the ceiling", &at_ceiling, &[0, 0, 0, 1, 0, 0, 0, 0]),
        hopeless("high just below the ceiling", &below, &[0; 8]),
        wrong("low above high", "00 02 00 01"),
        wrong("low above the ceiling", "00 04 FF FF"),
        wrong("high at the ceiling", "00 00 00 03"),
        wrong("low and high at the ceiling", "00 03 00 03"),
        wrong("high 65,534", "00 00 FF FE"),
        wrong("low and high 65,535", "FF FF FF FF"),
        refused(
            7,
            "the second clock",
            "00 00 02 00 03 00 01 01 00 00 01 00 00 00 00 00 00 00 00 00 00 02 00 00 00 01",
        ),
        refused(
            7,
            "7 of the first before 6 of the second",
            &two_rules(
                "00 00 00 00 00 00 00 00 02 00 01",
                "02 00 00 00 00 00 00 00 00 FF FF",
            ),
        ),
        refused(7, "7 before 8", &bounded("00 02 00 01 00")),
    ]
}

fn whole_files() -> Vec<Written> {
    let left_over = |file: &str| format!("{file} 00");
    let widest = "00 00 02 00 FF 00 FF 01 00 00 00";
    let most_locations = format!("{} 00 00", repeated("00 00 00 40", "00", 64));
    let most_of_all = "00 00 04 03 E9 03 E9 03 E9 03 E9 40";
    let most_of_all = format!("{} 00 00", repeated(most_of_all, "00", 64));
    let dead_start = "00 00 00 02 00 00 00 01 01 00 00 00 00 00 01";
    let no_way_back = "00 00 00 03 00 00 00 00 02 00 00 00 00 00 00 00 01 00 00 00 00 00 02";
    // Location 0 resets its clock for ever; in location 1 nothing does, and
    // at 1,001 no rule is left.
    let ageing = "00 00 01 03 E9 02 00 00 00 02 \
        00 00 00 00 00 01 00 00 00 FF FF \
        01 00 00 00 00 00 01 00 00 03 E8";
    let aged = [[1; 1_002], [0; 1_002]].concat();
    vec![
        marked("dying is passed back 1,001 times", ageing, 0, &aged),
        refused(8, "N and a byte", &left_over(N)),
        refused(8, "D and a byte", &left_over(D)),
        refused(8, "8 before 9", "00 00 02 00 FF 01 00 01 00 00 00 00"),
        refused(9, "65,792 states", "00 00 02 00 FF 01 00 01 00 00 00"),
        // 2^32 states, and the most that can be written: both too many
        // for 32 bits.
        refused(
            9,
            "four clocks of 256 values",
            "00 00 04 00 FF 00 FF 00 FF 00 FF 01 00 00 00",
        ),
        refused(9, "the most states", &most_of_all),
        hopeless("65,536 states", widest, &[0; 65_536]),
        prepare("65,536 states, a mark missing", widest, 65_535, 10, &[]),
        hopeless("64 locations", &most_locations, &[0; 64]),
        hopeless("a dead start beside a live state", dead_start, &[0, 1]),
        // Location 2 has no rule, 1 leads only there, 0 only to itself.
        marked("dying is passed back", no_way_back, 0, &[1, 0, 0]),
    ]
}

/// S with a second location that no rule enters and that has no rules.
pub const S_BESIDE: &str = "02 41 42 01 52 00 02 00 00 00 03 \
    00 03 03 00 00 00 FF \
    00 02 02 01 01 00 FF \
    00 00 00 00 00 00 00";

/// A leads from location 0 to 1, and from there everything to 2, which has no
/// rule.
const TWO_STEPS: &str = "01 41 00 00 03 00 00 00 00 03 \
    00 01 01 00 00 00 01 \
    00 00 00 00 00 00 00 \
    01 00 00 00 00 00 02";

/// As T, but the rule before takes all that would lead to location 1.
const TAKEN_BEFORE: &str = "01 41 01 42 00 02 00 00 00 02 \
    00 00 00 00 00 00 00 \
    00 01 01 00 00 00 01";

/// Location 0 resets its clock always; with A it would lead to location 1 if
/// the clock were 1 or more.
const NEVER_ONE: &str = "01 41 00 01 00 03 02 00 00 00 02 \
    00 01 01 00 00 00 01 00 01 FF FF \
    00 00 00 00 00 01 00 00 00 FF FF";

/// Location 0 leads to itself, and its clock goes on; at 3 it is due to be set
/// back. Past that there is no rule, but no stream comes there.
const SET_BACK: &str = "00 00 01 00 05 01 00 00 02 \
    00 00 00 00 00 00 00 00 00 00 02 \
    00 00 00 00 00 01 00 00 03 00 03";

/// Only states that a permitted stream from the start leads to count for the
/// verdict.
fn verdicts() -> Vec<Written> {
    let location_0 = [1, 1, 1, 1, 0, 0, 0, 0];
    vec![
        marked("S with a location never entered", S_BESIDE, 0, &[1, 0]),
        marked("two steps to the end", TWO_STEPS, 1, &[1, 0, 0]),
        marked(
            "a rule that decides no event leads nowhere",
            TAKEN_BEFORE,
            0,
            &[1, 0],
        ),
        marked("a clock value that never comes", NEVER_ONE, 0, &location_0),
        marked(
            "clock values past the last",
            SET_BACK,
            0,
            &[1, 1, 1, 1, 0, 0],
        ),
    ]
}
