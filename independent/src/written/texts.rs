//! Policies as texts: read, written, asked for places, and refused.

use super::halves::OVERFULL;
use super::*;
use crate::samples::*;

/// Those that are stored too, since between them they have every refusal.
pub fn stored() -> Vec<Written> {
    [
        samples(),
        room(),
        refused_files(),
        places(),
        refused(&REFUSED),
    ]
    .concat()
}

pub fn all() -> Vec<Written> {
    [
        stored(),
        refused_rules(),
        refused(&LINES),
        refused(&ORDER),
        crowds(),
        taken(),
    ]
    .concat()
}

fn read(name: &str, text: &[u8], lent: usize, answer: u64, file: &[u8]) -> Written {
    let call = Call::TextRead {
        text: text.to_vec(),
        file: filled(&[], lent),
    };
    let name = format!("text read: {name}");
    written(&name, call, answer, filled(file, lent), vec![])
}

fn write(name: &str, file: &str, lent: usize, answer: u64, text: &[u8]) -> Written {
    let call = Call::TextWrite {
        file: from_hex(file),
        text: filled(&[], lent),
    };
    let name = format!("text written: {name}");
    written(&name, call, answer, filled(text, lent), vec![])
}

/// What the reader finds.
fn gives(file: &[u8]) -> u64 {
    (file.len() as u64) << 40
}

/// The same file from another text.
fn reads(name: &str, text: &str, file: &str) -> Written {
    let file = from_hex(file);
    read(name, text.as_bytes(), file.len(), gives(&file), &file)
}

/// Written into a slice just long enough, and read likewise.
fn both(name: &str, file: &str, text: &str) -> [Written; 2] {
    let length = text.len();
    let answer = (length as u64) << 8;
    [
        write(name, file, length, answer, text.as_bytes()),
        reads(name, text, file),
    ]
}

const S_TEXT: &str = "input A
input B
output R
location q0

at q0
  A B -> violation
  B R -> violation
  any -> q0
";

const D_TEXT: &str = "input R
output C
clock t0 3
location q0
location q1

at q0
  R -> q1 reset t0
  any -> q0 reset t0

at q1
  C -> q0 reset t0
  !C t0 <= 2 -> q1
";

const T_TEXT: &str = "input A
output B
location q0
location q1

at q0
  A -> q1
  any -> q0
";

const K_TEXT: &str = "output K
clock t0 3
location q0

at q0
  K t0 >= 3 -> violation
  any -> q0
";

/// The example of the page, and the file that it gives.
const PAGE: &str = "# V opens only after a credit, and stays open at most 5 ticks after it
input  C credit            # a capital letter; then, if one is wanted, a name
input  P pulse
output V valve
clock  age 6               # name, ceiling in ticks
location idle              # the first is the start
location open must be left # byte 1; without the three words byte 0

at idle
  credit           -> open reset age
  valve            -> violation
  any              -> idle
at open
  valve age <= 4   -> open
  !valve           -> idle
";

const PAGE_FILE: &str = "02 43 50 01 56 01 00 06 02 00 01 00 05 \
    00 01 01 00 00 01 01 00 00 FF FF \
    00 00 00 01 01 00 FF 00 00 FF FF \
    00 00 00 00 00 00 00 00 00 FF FF \
    01 00 00 01 01 00 01 00 00 00 04 \
    01 00 00 01 00 00 00 00 00 FF FF";

const PAGE_WRITTEN: &str = "input C
input P
output V
clock t0 6
location q0
location q1 must be left

at q0
  C -> q1 reset t0
  V -> violation
  any -> q0

at q1
  V t0 <= 4 -> q1
  !V -> q0
";

/// One rule with all that it can have, at the last of three locations.
const FULL: &str = "02 5A 41 01 4D 02 00 09 03 E9 03 00 01 00 00 01 \
    02 03 02 01 00 03 02 00 03 00 08 00 01 03 E8";
const FULL_TEXT: &str = "input Z
input A
output M
clock t0 9
clock t1 1001
location q0
location q1 must be left
location q2

at q2
  !Z A !M t0 >= 3 t0 <= 8 t1 >= 1 t1 <= 1000 -> q2 reset t0 t1
";

fn samples() -> Vec<Written> {
    let own = [
        both("S", S, S_TEXT),
        both("D", D, D_TEXT),
        both("T", T, T_TEXT),
        both("K", K, K_TEXT),
        both("N", N, "location q0\n"),
        both("all that a rule can have", FULL, FULL_TEXT),
        both(
            "the page's example as it is written",
            PAGE_FILE,
            PAGE_WRITTEN,
        ),
    ];
    [
        own.concat(),
        vec![reads("the page's example", PAGE, PAGE_FILE)],
    ]
    .concat()
}

fn room() -> Vec<Written> {
    let (file, text) = (from_hex(T), T_TEXT.as_bytes());
    let (length, answer) = (text.len(), (text.len() as u64) << 8);
    vec![
        read(
            "bytes past the file stay",
            text,
            file.len() + 3,
            gives(&file),
            &file,
        ),
        read("14: one byte too few", text, file.len() - 1, 14, &[]),
        read("14: no room", text, 0, 14, &[]),
        write("bytes past the text stay", T, length + 3, answer, text),
        write("14: one byte too few", T, length - 1, 14, &[]),
        write("14: no room", N, 0, 14, &[]),
        write("1: cut short", "00 00 00 01 00 00", 20, 1, &[]),
        write("9 before 14", OVERFULL, 0, 9, &[]),
    ]
}

/// A place in the example of the page.
fn place(
    name: &str,
    text: &str,
    call: fn(Vec<u8>, u32) -> Call,
    number: u32,
    answer: u64,
) -> Written {
    let call = call(text.as_bytes().to_vec(), number);
    written(&format!("place: {name}"), call, answer, vec![], vec![])
}

fn rule(text: Vec<u8>, number: u32) -> Call {
    Call::TextLineOfRule { text, number }
}

fn signal(text: Vec<u8>, number: u32) -> Call {
    Call::TextNameOfSignal { text, number }
}

fn clock(text: Vec<u8>, number: u32) -> Call {
    Call::TextNameOfClock { text, number }
}

fn location(text: Vec<u8>, number: u32) -> Call {
    Call::TextNameOfLocation { text, number }
}

fn places() -> Vec<Written> {
    // The lines begin at 0, 10, 19, 29, 40, 51, 56, 57 and 65.
    let text = "input A a\noutput B\nclock t 5\nlocation p\nlocation q\nat p\n\nA -> q\nany->p";
    let name = |place: u64, length: u64| place << 8 | length << 40;
    let wrong = "\n\nlocation p p\n";
    vec![
        place("the first rule", text, rule, 0, 8 << 8),
        place("the last rule", text, rule, 1, 9 << 8),
        place("35: no third rule", text, rule, 2, 35),
        place("a rule of a text that fails", wrong, rule, 0, 30 | 3 << 8),
        place("an input", text, signal, 0, name(8, 1)),
        place("an output without a name", text, signal, 1, 0),
        place("35: no third signal", text, signal, 2, 35),
        place(
            "a signal of a text that fails",
            wrong,
            signal,
            9,
            30 | 3 << 8,
        ),
        place("a clock", text, clock, 0, name(25, 1)),
        place("35: no second clock", text, clock, 1, 35),
        place("a clock of a text that fails", wrong, clock, 0, 30 | 3 << 8),
        place("the first location", text, location, 0, name(38, 1)),
        place("the second location", text, location, 1, name(49, 1)),
        place(
            "35: no location of so great a number",
            text,
            location,
            1 << 31,
            35,
        ),
        place(
            "a location of a text that fails",
            wrong,
            location,
            0,
            30 | 3 << 8,
        ),
        place("2: a location of no text", "", location, 0, 2),
    ]
}

type Refused = (&'static str, &'static str, u64, u64);

fn refused(cases: &[Refused]) -> Vec<Written> {
    let one = |&(name, text, number, line): &Refused| {
        let name = format!("{number}: {name}");
        read(&name, text.as_bytes(), 60, number | line << 8, &[])
    };
    cases.iter().map(one).collect()
}

/// One of each number.
const REFUSED: [Refused; 9] = [
    ("no location", "input A\n", 2, 0),
    ("a ceiling of 0", "clock t 0\nlocation p\n", 4, 1),
    (
        "a high not below the ceiling",
        "clock t 5\nlocation p\nat p\nt <= 5 -> p\n",
        7,
        4,
    ),
    (
        "too many states",
        "clock t 1001\nclock u 65\nlocation p\n",
        9,
        0,
    ),
    ("no such line", "location p\nrule\n", 30, 2),
    ("an unknown target", "location p\nat p\nany -> q\n", 31, 3),
    ("65,536", "clock t 65536\nlocation p\n", 32, 1),
    (
        "five inputs",
        "input A\ninput B\ninput C\ninput D\ninput E\nlocation p\n",
        33,
        5,
    ),
    (
        "locations fall",
        "location p\nlocation q\nat q\nat p\n",
        34,
        4,
    ),
];

/// What a rule of `RULES` is put after.
const BEFORE: &str = "input A a\noutput B b\nclock t 5\nclock u 9\nlocation p\nlocation q\nat p\n";
/// Its line.
const RULE_LINE: u64 = 8;

/// A rule after these lines that is refused.
fn refused_rules() -> Vec<Written> {
    let one = |&(rule, number): &(&str, u64)| {
        let text = format!("{BEFORE}{rule}\nat q\n");
        let name = format!("{number}: {rule}");
        read(&name, text.as_bytes(), 80, number | RULE_LINE << 8, &[])
    };
    RULES.iter().map(one).collect()
}

const RULES: [(&str, u64); 100] = [
    // Not of the form.
    ("any", 30),
    ("any ->", 30),
    ("any p", 30),
    ("any -> p p", 30),
    ("any -> p q", 30),
    ("any any -> p", 30),
    ("any A -> p", 30),
    ("A", 30),
    ("A ->", 30),
    ("A -> p reset", 30),
    ("A -> p t", 30),
    ("A -> p restart t", 30),
    ("t -> p", 30),
    ("t A -> p", 30),
    ("t >= -> p", 30),
    ("t >= A -> p", 30),
    ("t >= t -> p", 30),
    ("t >= 1x -> p", 30),
    ("t >= -1 -> p", 30),
    ("t >= +1 -> p", 30),
    ("t >= 1.5 -> p", 30),
    ("t = 1 -> p", 30),
    ("t == 1 -> p", 30),
    ("t > 1 -> p", 30),
    ("t < 1 -> p", 30),
    ("t => 1 -> p", 30),
    ("t =< 1 -> p", 30),
    ("t >== 1 -> p", 30),
    ("t > = 1 -> p", 30),
    ("t 1 -> p", 30),
    // Unknown: a word in the place of a name that names nothing.
    ("-> p", 31),
    ("->", 31),
    ("A any -> p", 31),
    ("!any -> p", 31),
    ("A -> -> p", 31),
    ("A -> any", 31),
    ("A -> P", 31),
    ("A -> !p", 31),
    ("A -> 5", 31),
    ("A -> reset t", 31),
    ("A -> p reset 5", 31),
    ("A -> p reset T", 31),
    ("A -> p reset !t", 31),
    ("A -> p reset reset t", 31),
    ("A -> p reset t reset u", 31),
    ("A => p", 31),
    ("A - > p", 31),
    ("A --> p", 31),
    ("A ->> p", 31),
    ("! A -> p", 31),
    ("! -> p", 31),
    ("!!A -> p", 31),
    ("A! -> p", 31),
    ("A!B -> p", 31),
    ("A, B -> p", 31),
    ("AB -> p", 31),
    ("aB -> p", 31),
    ("violation -> p", 31),
    ("left -> p", 31),
    ("5 -> p", 31),
    ("1 <= t -> p", 31),
    ("t >= 1 <= 3 -> p", 31),
    ("A >= 1 -> p", 31),
    ("a1234567890123456 -> p", 31),
    ("A\0 -> p", 31),
    ("A\u{B}-> p", 31),
    ("A\u{A0}-> p", 31),
    ("\u{E9} -> p", 31),
    ("C -> p", 31),
    ("c -> p", 31),
    ("!C -> p", 31),
    ("!t -> p", 31),
    ("p -> p", 31),
    ("p", 31),
    ("A p", 31),
    ("v >= 1 -> p", 31),
    ("A -> r", 31),
    ("A -> a", 31),
    ("A -> p reset v", 31),
    ("A -> p reset a", 31),
    // Said twice.
    ("A A -> p", 31),
    ("A !A -> p", 31),
    ("A B a -> p", 31),
    ("A -> p reset t t", 31),
    // Numbers.
    ("t >= 65536 -> p", 32),
    ("t <= 5 -> p", 7),
    ("t >= 6 -> p", 7),
    ("t >= 3 t <= 2 -> p", 7),
    // Wrong in two ways.
    ("A A ->", 31),
    ("A -> ", 30),
    ("t >= 9 -> r", 31),
    ("t >= 9 -> p reset", 30),
    ("t >= 9 t >= 70000 -> p", 32),
    ("t <= 9 A A -> p", 31),
    ("t >= 70000", 32),
    ("t >= x u >= 70000 -> p", 30),
    ("any->->p", 30),
    ("any->>p", 30),
    ("any->p-", 30),
    ("any> p", 30),
];

/// Other lines that are refused.
const LINES: [Refused; 58] = [
    // Not of the form.
    ("a word that begins no line", "entry A\n", 30, 1),
    ("a capital", "Input A\n", 30, 1),
    ("input alone", "input\n", 30, 1),
    ("a small letter", "input a\n", 30, 1),
    ("two letters", "input AB\n", 30, 1),
    ("a digit", "output 1\n", 30, 1),
    ("a capital for a name", "output A B\n", 30, 1),
    ("a word too many", "input A a b\n", 30, 1),
    ("a keyword for a name", "input A any\n", 30, 1),
    (
        "another keyword for a name",
        "location p\nlocation be\n",
        30,
        2,
    ),
    ("a name of 17 bytes", "input A a1234567890123456\n", 30, 1),
    ("a name that begins with a digit", "input A 1a\n", 30, 1),
    (
        "a name that begins with an underscore",
        "input A _a\n",
        30,
        1,
    ),
    ("a hyphen", "input A a-b\n", 30, 1),
    ("a capital in a name", "input A aB\n", 30, 1),
    ("a letter beyond ASCII", "input A \u{E9}\n", 30, 1),
    ("a byte of 0", "input A a\0\n", 30, 1),
    ("no ceiling", "clock t\n", 30, 1),
    ("the ceiling first", "clock 5 t\n", 30, 1),
    ("two ceilings", "clock t 5 6\n", 30, 1),
    ("a capital for a clock", "clock T 5\n", 30, 1),
    ("a ceiling below 0", "clock t -1\n", 30, 1),
    ("a ceiling in letters", "clock t five\n", 30, 1),
    ("location alone", "location\n", 30, 1),
    ("a capital for a location", "location P\n", 30, 1),
    ("two names", "location p q\n", 30, 1),
    ("must", "location p must\n", 30, 1),
    ("must be", "location p must be\n", 30, 1),
    ("must be left now", "location p must be left now\n", 30, 1),
    (
        "must be left twice",
        "location p must be left must be left\n",
        30,
        1,
    ),
    ("be left must", "location p be left must\n", 30, 1),
    ("at alone", "location p\nat\n", 30, 2),
    (
        "at two locations",
        "location p\nlocation q\nat p q\n",
        30,
        3,
    ),
    ("at a letter", "location p\nat P\n", 31, 2),
    ("at the violation", "location p\nat violation\n", 31, 2),
    ("at p:", "location p\nat p:\n", 31, 2),
    (
        "a rule before the first at",
        "location p\nany -> p\n",
        30,
        2,
    ),
    ("a rule before the first location", "any -> p\n", 30, 1),
    // In the wrong place.
    ("an input after an output", "output A\ninput B\n", 30, 2),
    ("an input after a clock", "clock t 5\ninput B\n", 30, 2),
    (
        "an output after a location",
        "location p\noutput B\n",
        30,
        2,
    ),
    ("a clock after a location", "location p\nclock t 5\n", 30, 2),
    (
        "a location after an at",
        "location p\nat p\nlocation q\n",
        30,
        3,
    ),
    (
        "an input after a rule",
        "location p\nat p\nany -> p\ninput A\n",
        30,
        4,
    ),
    // Taken or unknown.
    ("a letter of an input", "input A\ninput A\n", 31, 2),
    (
        "an input's letter for an output",
        "input A\noutput A\n",
        31,
        2,
    ),
    ("a name of two signals", "input A a\noutput B a\n", 31, 2),
    (
        "a signal's name for a clock",
        "input A a\nclock a 5\n",
        31,
        2,
    ),
    ("a name of two clocks", "clock t 5\nclock t 5\n", 31, 2),
    ("a name of two locations", "location p\nlocation p\n", 31, 2),
    ("at an unknown location", "location p\nat q\n", 31, 2),
    ("at, before any location", "at p\n", 31, 1),
    // Numbers.
    ("a ceiling of 1,002", "clock t 1002\n", 4, 1),
    ("a ceiling of 65,535", "clock t 65535\n", 4, 1),
    (
        "a ceiling of 2 to the 64th and 1",
        "clock t 18446744073709551617\n",
        32,
        1,
    ),
    // Locations fall.
    (
        "after rules",
        "location p\nlocation q\nat q\nany -> p\nat p\n",
        34,
        5,
    ),
    // No location, or no text.
    ("no byte", "", 2, 0),
    ("a comment only", "# location p", 2, 0),
];

/// A line wrong in two ways, or two lines wrong.
const ORDER: [Refused; 19] = [
    ("the first of two lines", "location p q\nat r\n", 30, 1),
    (
        "the first of two, the other way",
        "location p\nat r\nat p p\n",
        31,
        2,
    ),
    ("a line before 2", "input A a b\n", 30, 1),
    (
        "a line before 9",
        "clock t 1001\nclock u 1001\nlocation p\nat p\nany -> q\n",
        31,
        5,
    ),
    ("2 before 9", "clock t 1001\nclock u 1001\n", 2, 0),
    (
        "9 before 14",
        "clock t 1001\nclock u 1001\nlocation p\n",
        9,
        0,
    ),
    (
        "a letter taken, a word too many",
        "input A\ninput A b c\n",
        30,
        2,
    ),
    ("a letter taken, no name", "input A\ninput A any\n", 31, 2),
    ("a name taken, no number", "clock t 5\nclock t x\n", 31, 2),
    (
        "a name taken, too great a number",
        "clock t 5\nclock t 70000\n",
        31,
        2,
    ),
    ("no name, a ceiling of 0", "clock T 0\n", 30, 1),
    (
        "a name taken, two of three words",
        "location p\nlocation p must be\n",
        30,
        2,
    ),
    (
        "a name taken, three other words",
        "location p\nlocation p must be now\n",
        30,
        2,
    ),
    (
        "an unknown location, a word too many",
        "location p\nat q q\n",
        30,
        2,
    ),
    (
        "a letter taken, in the wrong place",
        "input A\nlocation p\ninput A\n",
        30,
        3,
    ),
    (
        "the fifth is taken",
        "input A\ninput B\ninput C\ninput D\ninput A\n",
        31,
        5,
    ),
    (
        "the fifth has a ceiling of 0",
        "clock t 5\nclock u 5\nclock v 5\nclock w 5\nclock x 0\n",
        4,
        5,
    ),
    (
        "the fifth in the wrong place",
        "input A\ninput B\ninput C\ninput D\noutput E\ninput F\n",
        30,
        6,
    ),
    (
        "33 before 2",
        "clock t 5\nclock u 5\nclock v 5\nclock w 5\nclock x 5\n",
        33,
        5,
    ),
];

/// More of something than there is room for, and exactly as many.
fn crowds() -> Vec<Written> {
    let lines = |count: usize, line: &dyn Fn(usize) -> String| -> String {
        (0..count).map(|number| line(number) + "\n").collect()
    };
    let letter = |number: usize| char::from(b'A' + number as u8);
    let input = |number: usize| format!("input {}", letter(number));
    let output = |number: usize| format!("output {}", letter(number));
    let clock = |number: usize| format!("clock t{number} 1");
    let location = |number: usize| format!("location q{number}");
    let rule = |_: usize| "any -> p".to_string();
    let refused = |name: &str, text: String, line: u64| {
        read(
            &format!("33: {name}"),
            text.as_bytes(),
            60,
            33 | line << 8,
            &[],
        )
    };
    let accepted = |name: &str, text: String, file: String| reads(name, &text, &file);
    vec![
        accepted(
            "four inputs",
            lines(4, &input) + "location p",
            "04 41 42 43 44 00 00 01 00 00 00".to_string(),
        ),
        refused("five outputs", lines(5, &output) + "location p", 5),
        accepted(
            "four clocks",
            lines(4, &clock) + "location p",
            "00 00 04 00 01 00 01 00 01 00 01 01 00 00 00".to_string(),
        ),
        refused("five clocks", lines(5, &clock) + "location p", 5),
        accepted(
            "64 locations",
            lines(64, &location),
            repeated("00 00 00 40", "00", 66),
        ),
        refused("65 locations", lines(65, &location), 65),
        accepted(
            "256 rules",
            "location p\nat p\n".to_string() + &lines(256, &rule),
            repeated("00 00 00 01 00 01 00", "00 00 00 00 00 00 00", 256),
        ),
        refused(
            "257 rules",
            "location p\nat p\n".to_string() + &lines(257, &rule),
            259,
        ),
    ]
}

/// Texts that say the same in another way.
fn taken() -> Vec<Written> {
    let page = |name: &str, text: String| reads(name, &text, PAGE_FILE);
    let own = |name: &str, text: &str, file: &str| reads(name, text, file);
    let one = "00 00 01 00 05 01 00 00 01 00 00 00 00 00 00 00";
    let bound = |rule: &str| format!("clock t 5\nlocation p\nat p\n{rule}\n");
    vec![
        page("carriage returns", PAGE.replace('\n', "\r\n")),
        page("tabs", PAGE.replace(' ', "\t")),
        page(
            "no blanks beside signs",
            PAGE.replace(" <= ", "<=").replace(" -> ", "->"),
        ),
        page("no last line feed", PAGE.trim_end().to_string()),
        page("blank lines", PAGE.replace('\n', "\n \n\n#\n")),
        page(
            "letters for names",
            PAGE.replace("!valve", "!V").replace("  credit ", " C "),
        ),
        page("at open again", PAGE.replace("  !valve", "at open\n!valve")),
        page(
            "another order of conditions",
            PAGE.replace("valve age <= 4", "age <= 4 valve"),
        ),
        page("a low of 0", PAGE.replace("  any   ", "  age >= 0 ")),
        page(
            "leading zeros",
            PAGE.replace("4 ", "0004 ")
                .replace("age 6", "age 00000000006"),
        ),
        page(
            "a name of 16 bytes",
            PAGE.replace("idle", "i_1234567890abcd"),
        ),
        page(
            "a name much like a keyword",
            PAGE.replace("idle", "anys").replace("open", "lef"),
        ),
        page(
            "a comment with any bytes",
            PAGE.replace("# V", "#\0\u{E9}\r#!->"),
        ),
        own(
            "a location called as a signal and as a clock",
            "input A a\nclock t 1\nlocation a\nlocation t\nat a\na -> t\n",
            "01 41 00 01 00 01 02 00 00 00 01 00 01 01 00 00 00 01 00 00 FF FF",
        ),
        own(
            "locations without rules are passed over",
            "location p\nlocation q\nat q\nany -> q\n",
            "00 00 00 02 00 00 00 01 01 00 00 00 00 00 01",
        ),
        own(
            "at the end",
            "location p\nlocation q\nat p\nat q\n",
            "00 00 00 02 00 00 00 00",
        ),
        own(
            "a low at the ceiling",
            &bound("t >= 5 -> p"),
            &format!("{one} 00 05 FF FF"),
        ),
        own(
            "a high below it",
            &bound("t <= 4 -> p"),
            &format!("{one} 00 00 00 04"),
        ),
        own(
            "a low as its high",
            &bound("t <= 3 t >= 3 -> p"),
            &format!("{one} 00 03 00 03"),
        ),
        own(
            "of two lows the greater",
            &bound("t >= 2 t >= 1 -> p"),
            &format!("{one} 00 02 FF FF"),
        ),
        own(
            "of two highs the lesser, though the other is too great",
            &bound("t <= 9 t <= 1 -> p"),
            &format!("{one} 00 00 00 01"),
        ),
        own(
            "a high of 65,535 is none",
            &bound("t <= 65535 -> p"),
            &format!("{one} 00 00 FF FF"),
        ),
        own(
            "a high of 0",
            &bound("t <= 0 -> p"),
            &format!("{one} 00 00 00 00"),
        ),
    ]
}

/// A file for each refusal of its own.
fn refused_files() -> Vec<Written> {
    let files = [
        (2, "05"),
        (3, "01 61 00 00 01 00 00 00"),
        (4, "00 00 01 00 00 01 00 00 00"),
        (5, "00 00 00 01 02 00 00"),
        (6, "00 00 00 01 00 00 01 00 00 00 00 00 00 01"),
        (
            7,
            "00 00 01 00 03 01 00 00 01 00 00 00 00 00 00 00 00 01 00 00",
        ),
        (8, "00 00 00 01 00 00 00 00"),
    ];
    let one = |(number, file): (u64, &str)| write(&format!("{number}"), file, 0, number, &[]);
    files.map(one).to_vec()
}
