//! Locations that must be left.

use super::files::{hopeless, marked};
use super::halves::{self, ask, input, output};
use super::joins;
use super::runs::stream;
use super::*;

pub fn all() -> Vec<Written> {
    [transfers(), starts(), for_ever(), deadlines(), together()].concat()
}

/// A begins a transfer, which location 1 is in the middle of, and B finishes
/// it.
pub const TRANSFER: &str = "01 41 01 42 00 02 00 01 00 04 \
    00 01 01 00 00 00 01 \
    00 00 00 00 00 00 00 \
    01 00 00 01 01 00 00 \
    01 00 00 00 00 00 01";

/// As T, but what A begins goes on for ever; nothing finishes it.
pub const UNFINISHED: &str = "01 41 01 42 00 02 00 01 00 03 \
    00 01 01 00 00 00 01 \
    00 00 00 00 00 00 00 \
    01 00 00 00 00 00 01";

/// The same where location 1 may rest.
pub const ENDLESS: &str = "01 41 01 42 00 02 00 00 00 03 \
    00 01 01 00 00 00 01 \
    00 00 00 00 00 00 00 \
    01 00 00 00 00 00 01";

fn transfers() -> Vec<Written> {
    let under_way = [1, 0, 0, 0, 0];
    let finishing = ask(TRANSFER, &[1, 1], &under_way, 0, 1);
    let waiting = ask(TRANSFER, &[1, 1], &under_way, 0, 0);
    vec![
        marked("a transfer", TRANSFER, 0, &[1, 1]),
        input(
            "a transfer that can be finished is let in",
            TRANSFER,
            &[1, 1],
            &START,
            1,
            halves::gives(1),
        ),
        output(
            "a transfer is finished",
            finishing,
            halves::gives(1),
            &START,
        ),
        output(
            "a transfer goes on as long as it may",
            waiting,
            halves::gives(0),
            &under_way,
        ),
        stream(
            "a transfer from its begin to its end",
            TRANSFER,
            &[1, 1],
            "01 00 01 11 00",
            "01 00 01 11 00",
            START,
        ),
        marked("a transfer that cannot be finished", UNFINISHED, 1, &[1, 0]),
        input(
            "a transfer that cannot be finished does not begin",
            UNFINISHED,
            &[1, 0],
            &START,
            1,
            halves::gives(0),
        ),
        stream(
            "a transfer that cannot be finished is edited away",
            UNFINISHED,
            &[1, 0],
            "01 11 10",
            "00 10 10",
            START,
        ),
        marked("the same where it may rest", ENDLESS, 0, &[1, 1]),
    ]
}

fn starts() -> Vec<Written> {
    // One location that leads to itself.
    let stays = "00 00 00 01 01 00 01 00 00 00 00 00 00 00";
    // Location 0 leads to location 1, which leads to itself.
    let left_once = "00 00 00 02 01 00 00 02 00 00 00 00 00 00 01 01 00 00 00 00 00 01";
    let into_rest_no_more = "00 00 00 02 00 01 00 02 00 00 00 00 00 00 01 01 00 00 00 00 00 01";
    // Location 0 leads to location 1, which has no rule.
    let one_rest = "00 00 00 02 01 00 00 01 00 00 00 00 00 00 01";
    vec![
        hopeless("a start that must be left and cannot", stays, &[0]),
        marked("a start that must be left and can", left_once, 0, &[1, 1]),
        hopeless(
            "a start that rests and leads to what cannot be left",
            into_rest_no_more,
            &[0, 0],
        ),
        hopeless(
            "a start that can be left, but only for one event",
            one_rest,
            &[0, 0],
        ),
    ]
}

/// Location 0 stays, or with A leads to 1, which leads on to 2 and that to 3,
/// which stays.
fn walk_away(location_bytes: &str) -> String {
    format!(
        "01 41 00 00 04 {location_bytes} 00 05 \
        00 01 01 00 00 00 01 \
        00 00 00 00 00 00 00 \
        01 00 00 00 00 00 02 \
        02 00 00 00 00 00 03 \
        03 00 00 00 00 00 03"
    )
}

/// Locations 1 and 2 lead to each other, and location 0 to itself or to 1.
fn to_and_fro(location_bytes: &str) -> String {
    format!(
        "01 41 00 00 03 {location_bytes} 00 04 \
        00 01 01 00 00 00 01 \
        00 00 00 00 00 00 00 \
        01 00 00 00 00 00 02 \
        02 00 00 00 00 00 01"
    )
}

fn for_ever() -> Vec<Written> {
    vec![
        marked(
            "for ever, but only one event ends at rest",
            &walk_away("00 01 00 01"),
            1,
            &[1, 0, 0, 0],
        ),
        marked(
            "through two that must be left to one that rests",
            &walk_away("00 01 01 00"),
            0,
            &[1; 4],
        ),
        marked(
            "to and fro, and one of the two rests",
            &to_and_fro("00 01 00"),
            0,
            &[1; 3],
        ),
        marked(
            "to and fro, and neither rests",
            &to_and_fro("00 01 01"),
            1,
            &[1, 0, 0],
        ),
        // A stream that leaves location 0 never comes back, and one that
        // stays there has no event that ends at rest.
        marked(
            "to and fro is the only rest",
            &to_and_fro("01 00 01"),
            0,
            &[1; 3],
        ),
    ]
}

/// After R the clock starts, and C leads back only while it is at most 2;
/// after that location 1 is never left.
pub const MISSED: &str = "01 52 01 43 01 00 03 02 00 01 00 04 \
    00 01 01 00 00 01 01 00 00 FF FF \
    00 00 00 00 00 01 00 00 00 FF FF \
    01 00 00 01 01 01 00 00 00 00 02 \
    01 00 00 00 00 00 01 00 00 FF FF";

pub const MISSED_MARKS: [u8; 8] = [1, 1, 1, 1, 1, 1, 1, 0];

fn deadlines() -> Vec<Written> {
    let last_chance = ask(MISSED, &MISSED_MARKS, &[1, 2, 0, 0, 0], 1, 0);
    vec![
        marked(
            "a clock value too late to rest again",
            MISSED,
            1,
            &MISSED_MARKS,
        ),
        output(
            "the last chance to leave",
            last_chance,
            halves::gives(1),
            &START,
        ),
        stream(
            "left at the last chance",
            MISSED,
            &MISSED_MARKS,
            "01 00 00 00 00",
            "01 00 00 10 00",
            START,
        ),
    ]
}

/// Rests at every second tick: at rest, not, at rest, and so on.
const EVEN: &str = "00 00 00 02 00 01 00 02 00 00 00 00 00 00 01 01 00 00 00 00 00 00";
/// Rests at the other ticks.
const ODD: &str = "00 00 00 02 01 00 00 02 00 00 00 00 00 00 01 01 00 00 00 00 00 00";
const EVEN_ODD: &str = "00 00 00 04 01 00 01 01 00 04 \
    00 00 00 00 00 00 03 \
    01 00 00 00 00 00 02 \
    02 00 00 00 00 00 01 \
    03 00 00 00 00 00 00";
const EVEN_EVEN: &str = "00 00 00 04 00 01 01 01 00 04 \
    00 00 00 00 00 00 03 \
    01 00 00 00 00 00 02 \
    02 00 00 00 00 00 01 \
    03 00 00 00 00 00 00";
/// Permits everything, and has no signals.
const UNIT: &str = "00 00 00 01 00 00 01 00 00 00 00 00 00 00";

fn together() -> Vec<Written> {
    vec![
        marked("rests at even ticks", EVEN, 0, &[1, 1]),
        marked("rests at odd ticks", ODD, 0, &[1, 1]),
        joins::gives("a pair must be left if either must", EVEN, ODD, EVEN_ODD),
        hopeless(
            "live apart, and never at rest together",
            EVEN_ODD,
            &[0, 1, 1, 0],
        ),
        joins::gives("even ticks twice", EVEN, EVEN, EVEN_EVEN),
        marked(
            "at rest together at even ticks",
            EVEN_EVEN,
            0,
            &[1, 0, 0, 1],
        ),
        joins::gives("the unit rests everywhere", EVEN, UNIT, EVEN),
        joins::gives("after the unit", UNIT, ODD, ODD),
    ]
}
