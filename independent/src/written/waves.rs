//! Waves: texts written and read, and what is refused.

use super::halves::OVERFULL;
use super::*;
use crate::samples::*;

pub fn all() -> Vec<Written> {
    [
        there_and_back(),
        room(),
        refused_files(),
        refused_streams(),
        refused_texts(),
    ]
    .concat()
}

const MOST_EVENTS: usize = 16_384;

/// Each line ends with one line feed.
fn text(lines: &[&str]) -> Vec<u8> {
    let ended = lines.iter().map(|line| format!("{line}\n"));
    ended.collect::<String>().into_bytes()
}

fn write(name: &str, file: &str, events: &[u8], lent: usize, answer: u64, text: &[u8]) -> Written {
    let call = Call::WaveWrite {
        file: from_hex(file),
        events: events.to_vec(),
        text: filled(&[], lent),
    };
    let name = format!("wave written: {name}");
    written(&name, call, answer, filled(text, lent), vec![])
}

fn read(name: &str, file: &str, text: &[u8], lent: usize, answer: u64, events: &[u8]) -> Written {
    let call = Call::WaveRead {
        file: from_hex(file),
        text: text.to_vec(),
        events: filled(&[], lent),
    };
    let name = format!("wave read: {name}");
    written(&name, call, answer, filled(events, lent), vec![])
}

/// The length or the count, above no refusal.
fn found(bytes: &[u8]) -> u64 {
    (bytes.len() as u64) << 8
}

/// Written into a slice just long enough, and read likewise.
fn both(name: &str, file: &str, events: &[u8], vars: &[&str], lines: &[&str]) -> [Written; 2] {
    let text = wave(vars, lines);
    [
        write(name, file, events, text.len(), found(&text), &text),
        read(name, file, &text, events.len(), found(events), events),
    ]
}

const SCALE: &str = "$timescale 100 ms $end";
const DEFINED: &str = "$enddefinitions $end";
const VARS_T: [&str; 2] = ["$var wire 1 A A $end", "$var wire 1 B B $end"];
const VAR_K: [&str; 1] = ["$var wire 1 K K $end"];

/// A text with the header around these lines for the signals.
fn wave(vars: &[&str], lines: &[&str]) -> Vec<u8> {
    text(&[&[SCALE], vars, &[DEFINED], lines].concat())
}

/// Inputs A to D, outputs E to H.
const EIGHT: &str = "04 41 42 43 44 04 45 46 47 48 00 01 00 00 00";
const VARS_EIGHT: [&str; 8] = [
    "$var wire 1 A A $end",
    "$var wire 1 B B $end",
    "$var wire 1 C C $end",
    "$var wire 1 D D $end",
    "$var wire 1 E E $end",
    "$var wire 1 F F $end",
    "$var wire 1 G G $end",
    "$var wire 1 H H $end",
];

/// Inputs Z and A, output M.
const UNSORTED: &str = "02 5A 41 01 4D 00 01 00 00 00";
const VARS_UNSORTED: [&str; 3] = [
    "$var wire 1 Z Z $end",
    "$var wire 1 A A $end",
    "$var wire 1 M M $end",
];

/// One input Q and no output.
const INPUT_ONLY: &str = "01 51 00 00 01 00 00 00";

fn there_and_back() -> Vec<Written> {
    let steady = [0; MOST_EVENTS];
    let last_differs = [&[0; MOST_EVENTS - 1][..], &[1]].concat();
    // K is on at the times 9, 99, 999 and 9,999.
    let mut digits = [0; 10_001];
    for time in [9, 99, 999, 9_999] {
        digits[time] = 0x10;
    }
    let vars_d = ["$var wire 1 R R $end", "$var wire 1 C C $end"];
    let case =
        |name: &str, events: &str, lines: &[&str]| both(name, T, &from_hex(events), &VARS_T, lines);
    [
        case("an empty stream", "", &["#0"]),
        case("one event, all off", "00", &["#0", "0A", "0B", "#1"]),
        case("one event, all on", "11", &["#0", "1A", "1B", "#1"]),
        case("nothing changes", "00 00", &["#0", "0A", "0B", "#2"]),
        case(
            "what case 9 releases",
            "00 10",
            &["#0", "0A", "0B", "#1", "1B", "#2"],
        ),
        case(
            "all change",
            "01 10",
            &["#0", "1A", "0B", "#1", "0A", "1B", "#2"],
        ),
        case(
            "a change there and back",
            "01 00 01 01",
            &["#0", "1A", "0B", "#1", "0A", "#2", "1A", "#4"],
        ),
        both(
            "what case 7 releases",
            D,
            &from_hex("01 00 00 00 10"),
            &vars_d,
            &["#0", "1R", "0C", "#1", "0R", "#4", "1C", "#5"],
        ),
        both("no signals, no events", N, &[], &[], &["#0"]),
        both("no signals, one event", N, &[0], &[], &["#0", "#1"]),
        both(
            "no signals, 16,384 events",
            N,
            &steady,
            &[],
            &["#0", "#16384"],
        ),
        both(
            "outputs only",
            K,
            &from_hex("10 00"),
            &VAR_K,
            &["#0", "1K", "#1", "0K", "#2"],
        ),
        both(
            "inputs only",
            INPUT_ONLY,
            &[1],
            &["$var wire 1 Q Q $end"],
            &["#0", "1Q", "#1"],
        ),
        both(
            "file order and not that of the letters",
            UNSORTED,
            &from_hex("01 12"),
            &VARS_UNSORTED,
            &["#0", "1Z", "0A", "0M", "#1", "0Z", "1A", "1M", "#2"],
        ),
        both(
            "eight signals",
            EIGHT,
            &from_hex("0F F1 90"),
            &VARS_EIGHT,
            &[
                "#0", "1A", "1B", "1C", "1D", "0E", "0F", "0G", "0H", //
                "#1", "0B", "0C", "0D", "1E", "1F", "1G", "1H", //
                "#2", "0A", "0F", "0G", //
                "#3",
            ],
        ),
        both(
            "16,384 events, nothing changes",
            T,
            &steady,
            &VARS_T,
            &["#0", "0A", "0B", "#16384"],
        ),
        both(
            "16,384 events, the last differs",
            T,
            &last_differs,
            &VARS_T,
            &["#0", "0A", "0B", "#16383", "1A", "#16384"],
        ),
        both(
            "times of one to five digits",
            K,
            &digits,
            &VAR_K,
            &[
                "#0", "0K", "#9", "1K", "#10", "0K", "#99", "1K", "#100", "0K", //
                "#999", "1K", "#1000", "0K", "#9999", "1K", "#10000", "0K", "#10001",
            ],
        ),
    ]
    .concat()
}

/// Of T: two events, 01 10.
const TWO: [&str; 7] = ["#0", "1A", "0B", "#1", "0A", "1B", "#2"];

fn room() -> Vec<Written> {
    let (stream, text) = ([0x01, 0x10], wave(&VARS_T, &TWO));
    let empty = wave(&[], &["#0"]);
    let length = text.len();
    vec![
        write(
            "bytes past the text stay",
            T,
            &stream,
            length + 3,
            found(&text),
            &text,
        ),
        read(
            "bytes past the events stay",
            T,
            &text,
            5,
            found(&stream),
            &stream,
        ),
        write("14: one byte too few", T, &stream, length - 1, 14, &[]),
        write("14: no byte", T, &stream, 0, 14, &[]),
        write("14: no byte for the header alone", N, &[], 0, 14, &[]),
        write(
            "14: not for the last line",
            N,
            &[],
            empty.len() - 1,
            14,
            &[],
        ),
        read("14: one event too few", T, &text, 1, 14, &[]),
        read("14: no room", T, &text, 0, 14, &[]),
        read("an empty stream needs no room", N, &empty, 3, 0, &[]),
        read(
            "14: 16,383 places for 16,384 events",
            N,
            &wave(&[], &["#0", "#16384"]),
            MOST_EVENTS - 1,
            14,
            &[],
        ),
    ]
}

/// A file for each refusal of its own.
const REFUSED_FILES: [(u64, &str); 9] = [
    (1, ""),
    (2, "05"),
    (3, "01 61 00 00 01 00 00 00"),
    (4, "00 00 01 00 00 01 00 00 00"),
    (5, "00 00 00 01 02 00 00"),
    (6, "00 00 00 01 00 00 01 00 00 00 00 00 00 01"),
    (
        7,
        "00 00 01 00 03 01 00 00 01 00 00 00 00 00 00 00 00 01 00 00",
    ),
    (8, "00 00 00 01 00 00 00 00"),
    (9, OVERFULL),
];

/// The file is asked before the stream, the text and the room.
fn refused_files() -> Vec<Written> {
    let over = [0xFF; MOST_EVENTS + 1];
    let asked = |(number, file): (u64, &str)| {
        let name = format!("{number} before all else");
        [
            write(&name, file, &over, 0, number, &[]),
            read(&name, file, b"#", 0, number, &[]),
        ]
    };
    REFUSED_FILES.into_iter().flat_map(asked).collect()
}

fn refused_streams() -> Vec<Written> {
    let over = [0; MOST_EVENTS + 1];
    let over_and_beyond = [0xFF; MOST_EVENTS + 1];
    let late = [&[0; MOST_EVENTS - 1][..], &[2]].concat();
    let beyond =
        |name: &str, file: &str, events: &str| write(name, file, &from_hex(events), 200, 15, &[]);
    vec![
        write("29: 16,385 events", T, &over, 200, 29, &[]),
        write("29: without signals", N, &over, 200, 29, &[]),
        write("29 before 15", T, &over_and_beyond, 200, 29, &[]),
        write("29 before 14", T, &over, 0, 29, &[]),
        beyond("15: an input beyond", T, "02"),
        beyond("15: an output beyond", T, "20"),
        beyond("15: the first of two", T, "80 00"),
        beyond("15: the last of two", T, "00 08"),
        beyond("15: any bit without signals", N, "01"),
        beyond("15: an input where only outputs are", K, "01"),
        beyond("15: an output where only inputs are", INPUT_ONLY, "10"),
        write("15: the last of 16,384", T, &late, 200, 15, &[]),
        write("15 before 14", T, &[2], 0, 15, &[]),
    ]
}

/// A text for T that is not of the form.
fn not_so(name: &str, text: &[u8]) -> Written {
    read(&format!("21: {name}"), T, text, 4, 21, &[])
}

/// Without the header.
const BODIES: [(&str, &[&str]); 43] = [
    ("no time", &[]),
    ("#0 missing", &["1A", "0B", "#1"]),
    ("the first time is 1", &["#1", "1A", "0B", "#2"]),
    ("nothing but the time 1", &["#1"]),
    ("#0 twice", &["#0", "#0"]),
    ("#0 twice, then values", &["#0", "#0", "1A", "0B", "#1"]),
    ("an event without values", &["#0", "#1"]),
    ("a value missing at time 0", &["#0", "1A", "#1"]),
    ("the first value missing at time 0", &["#0", "0B", "#1"]),
    ("a value twice at time 0", &["#0", "1A", "1A", "0B", "#1"]),
    ("values exchanged at time 0", &["#0", "0B", "1A", "#1"]),
    ("values of an empty stream", &["#0", "1A", "0B"]),
    ("closed at 0", &["#0", "1A", "0B", "#0"]),
    ("closing time missing", &["#0", "1A", "0B", "#1", "0A"]),
    (
        "closed at the last time",
        &["#0", "1A", "0B", "#1", "0A", "#1"],
    ),
    (
        "closed before the last time",
        &["#0", "1A", "0B", "#2", "0A", "#1"],
    ),
    ("closed twice", &["#0", "1A", "0B", "#1", "#2"]),
    ("closed twice alike", &["#0", "1A", "0B", "#1", "#1"]),
    (
        "a time without a change",
        &["#0", "1A", "0B", "#1", "#2", "0A", "#3"],
    ),
    (
        "a time twice",
        &["#0", "1A", "0B", "#1", "0A", "#1", "1B", "#2"],
    ),
    (
        "falling times",
        &["#0", "1A", "0B", "#2", "0A", "#1", "1B", "#3"],
    ),
    (
        "a signal written again as it is",
        &["#0", "1A", "0B", "#1", "1A", "#2"],
    ),
    (
        "again beside a change",
        &["#0", "1A", "0B", "#1", "0A", "0B", "#2"],
    ),
    (
        "a signal twice at a time",
        &["#0", "1A", "0B", "#1", "0A", "1A", "#2"],
    ),
    (
        "changes exchanged",
        &["#0", "1A", "0B", "#1", "1B", "0A", "#2"],
    ),
    ("an unknown tag", &["#0", "1A", "0B", "#1", "1C", "#2"]),
    ("a small letter", &["#0", "1a", "0B", "#1"]),
    ("an unknown value", &["#0", "xA", "0B", "#1"]),
    ("the value 2", &["#0", "2A", "0B", "#1"]),
    ("a blank in a value", &["#0", "1 A", "0B", "#1"]),
    ("something after a value", &["#0", "1A ", "0B", "#1"]),
    ("#00", &["#00", "1A", "0B", "#1"]),
    ("a leading zero", &["#0", "1A", "0B", "#01"]),
    ("a sign", &["#0", "1A", "0B", "#+1"]),
    ("a time without digits", &["#0", "1A", "0B", "#"]),
    ("something after a time", &["#0", "1A", "0B", "#1 "]),
    ("a blank line", &["#0", "1A", "0B", "", "#1"]),
    ("dumpvars", &["#0", "$dumpvars", "1A", "0B", "$end", "#1"]),
    ("closed above 16,384", &["#0", "1A", "0B", "#16385"]),
    (
        "a change at 16,384",
        &["#0", "1A", "0B", "#16384", "0A", "#16385"],
    ),
    ("1 and 65,536", &["#0", "1A", "0B", "#65537"]),
    ("1 and 2 to the 32nd", &["#0", "1A", "0B", "#4294967297"]),
    (
        "1 and 2 to the 64th",
        &["#0", "1A", "0B", "#18446744073709551617"],
    ),
];

/// Other headers, before the lines of an empty stream.
const HEADERS: [(&str, &[&str]); 15] = [
    ("no header", &[]),
    ("scale missing", &[VARS_T[0], VARS_T[1], DEFINED]),
    (
        "another scale",
        &["$timescale 10 ms $end", VARS_T[0], VARS_T[1], DEFINED],
    ),
    (
        "no blank in the scale",
        &["$timescale 100ms $end", VARS_T[0], VARS_T[1], DEFINED],
    ),
    (
        "scale twice",
        &[SCALE, SCALE, VARS_T[0], VARS_T[1], DEFINED],
    ),
    ("a signal missing", &[SCALE, VARS_T[0], DEFINED]),
    ("no signals", &[SCALE, DEFINED]),
    (
        "a signal twice",
        &[SCALE, VARS_T[0], VARS_T[0], VARS_T[1], DEFINED],
    ),
    ("signals exchanged", &[SCALE, VARS_T[1], VARS_T[0], DEFINED]),
    ("another signal", &[SCALE, VARS_T[0], VAR_K[0], DEFINED]),
    (
        "another identifier",
        &[SCALE, VARS_T[0], "$var wire 1 C B $end", DEFINED],
    ),
    (
        "another name",
        &[SCALE, VARS_T[0], "$var wire 1 B C $end", DEFINED],
    ),
    (
        "a register",
        &[SCALE, VARS_T[0], "$var reg 1 B B $end", DEFINED],
    ),
    ("end of definitions missing", &[SCALE, VARS_T[0], VARS_T[1]]),
    (
        "a comment",
        &[SCALE, "$comment x $end", VARS_T[0], VARS_T[1], DEFINED],
    ),
];

fn refused_texts() -> Vec<Written> {
    let right = wave(&VARS_T, &TWO);
    let with_returns = String::from_utf8_lossy(&right).replace('\n', "\r\n");
    let without_end = &right[..right.len() - 1];
    let and = |more: &[u8]| [&right, more].concat();
    let whole = [
        not_so("no byte", b""),
        not_so("a line feed only", b"\n"),
        not_so("carriage returns", with_returns.as_bytes()),
        not_so(
            "a carriage return at the end",
            &[without_end, b"\r\n"].concat(),
        ),
        not_so("the last line feed missing", without_end),
        not_so("one line feed more", &and(b"\n")),
        not_so("a zero byte more", &and(&[0])),
        not_so("a blank more", &and(b" ")),
        not_so("a byte that is no letter", &and(&[0xB1, b'\n'])),
        not_so("twice", &and(&right)),
        read("21: the text of other signals", S, &right, 4, 21, &[]),
        read(
            "21: a value without signals",
            N,
            &wave(&[], &["#0", "0A", "#1"]),
            4,
            21,
            &[],
        ),
        read(
            "21: closed twice without signals",
            N,
            &wave(&[], &["#0", "#1", "#2"]),
            4,
            21,
            &[],
        ),
        read(
            "21: above 16,384 without signals",
            N,
            &wave(&[], &["#0", "#16385"]),
            4,
            21,
            &[],
        ),
        read("21 before 14", T, without_end, 0, 21, &[]),
    ];
    let bodies = BODIES.map(|(name, lines)| not_so(name, &wave(&VARS_T, lines)));
    let headers = HEADERS.map(|(name, lines)| not_so(name, &text(&[lines, &["#0"]].concat())));
    whole.into_iter().chain(bodies).chain(headers).collect()
}
