//! Policies as text: compiled, shown, and named in all that is printed.

mod common;

use std::fs;

use common::random::{policy, spoilt, Random};
use common::samples::{D, DOORS, K, N, S, T};
use common::{desk, desk_reading, Folder};

/// The valve opens only after a credit, and stays open at most 5 ticks after it.
const VALVE: &[u8] = b"\
# The valve, after a credit
input  C credit
input  P pulse
output V valve
clock  age 6
location idle
location open must be left

at idle
  credit           -> open reset age
  valve            -> violation
  any              -> idle
at open
  valve age <= 4   -> open
  !valve           -> idle
";

/// Its file, by hand.
const VALVE_FILE: &[u8] = &[
    2, b'C', b'P', 1, b'V', 1, 0, 6, 2, 0, 1, 0, 5, //
    0, 1, 1, 0, 0, 1, 1, 0, 0, 255, 255, //
    0, 0, 0, 1, 1, 0, 255, 0, 0, 255, 255, //
    0, 0, 0, 0, 0, 0, 0, 0, 0, 255, 255, //
    1, 0, 0, 1, 1, 0, 1, 0, 0, 0, 4, //
    1, 0, 0, 1, 0, 0, 0, 0, 0, 255, 255,
];

#[test]
fn compile_writes_the_file() {
    let folder = Folder::new();
    let text = folder.file("valve", VALVE);
    let file = folder.path("valve.policy");
    desk(&["compile", &text, "-o", &file]).good();
    assert_eq!(fs::read(&file).expect("it was written"), VALVE_FILE);
    let said = desk_reading(&["compile", "-", "-o", "-"], VALVE).good();
    assert_eq!(said.out, VALVE_FILE);
    desk(&["compile", &file, "-o", "-"]).bad(1, "it is a policy file already");
    desk(&["compile", &text]).bad(2, "-o FILE is missing");
    desk(&["compile"]).bad(2, "usage: groovepawn compile TEXT -o FILE");
}

#[test]
fn what_show_prints_compiles_to_the_same_file() {
    let folder = Folder::new();
    let mut random = Random::new(31);
    let mut files: Vec<Vec<u8>> = [S, D, T, K, N, DOORS, VALVE_FILE]
        .iter()
        .map(|file| file.to_vec())
        .collect();
    files.extend((0..40).map(|_| policy(&mut random)));
    let mut shown = 0;
    for file in files {
        let path = folder.file("policy", &file);
        let text = desk(&["show", &path]);
        if text.status != Some(0) {
            text.bad(1, "refused ");
            continue;
        }
        shown += 1;
        let back = desk_reading(&["compile", "-", "-o", "-"], &text.good().out).good();
        assert_eq!(back.out, file);
    }
    assert!(shown > 20, "{shown} shown");
}

#[test]
fn show_leaves_names_out() {
    let said = desk_reading(&["show", "-"], VALVE).good();
    assert_eq!(
        said.text(),
        "input C\ninput P\noutput V\nclock t0 6\nlocation q0\nlocation q1 must be left\n\n\
         at q0\n  C -> q1 reset t0\n  V -> violation\n  any -> q0\n\n\
         at q1\n  V t0 <= 4 -> q1\n  !V -> q0\n"
    );
}

#[test]
fn names_and_lines_in_what_is_printed() {
    let folder = Folder::new();
    let text = folder.file("valve", VALVE);
    let events = folder.file("events", b"valve\ncredit\nV valve_not\n");
    let said = desk(&["check", &text]).good();
    assert!(said
        .text()
        .contains("inputs credit pulse, outputs valve, 1 clock"));
    desk(&["run", &text, &events]).bad(
        1,
        "line 3: tick 3: no signal valve_not; there are credit (C) pulse (P) valve (V)",
    );
    let events = folder.file("events", b"valve\nC\nV * 6\ncredit V\n");
    let said = desk(&["why", &text, &events]).good();
    assert_eq!(
        said.text(),
        "tick 1: read valve, released -\n  \
         output: rule 1 (line 11) forbids it: at location idle, valve on\n\
         tick 8: read valve, released -\n  output: no rule allows it\n\
         2 of 9 ticks edited under reading 1\n"
    );
    let said = desk(&["run", &text, &events]).good();
    assert!(said
        .text()
        .contains("\n-                   # 1: read valve, output edited\n"));
    assert!(said.text().contains("\ncredit valve        # 9\n"));
    let said = desk(&["draw", &text]).good();
    assert!(said
        .text()
        .contains("q1 [label=\"open\", shape=doublecircle];"));
    assert!(said
        .text()
        .contains("[label=\"line 14: valve age <= 4 -> open\"];"));
    let said = desk(&["wave", "--all", &text, &events, "-o", "-"]).good();
    assert!(said
        .text()
        .contains("$var wire 1 C credit $end\n$var wire 1 c credit_read $end\n"));
}

#[test]
fn a_text_and_its_file_release_the_same() {
    let folder = Folder::new();
    let (text, file) = (folder.file("text", VALVE), folder.file("file", VALVE_FILE));
    let events = folder.file("events", b"V\nC\nV * 7\nC P\nV\n- * 3\nC V\nV * 9\n");
    for reading in ["1", "2"] {
        let of_text = desk(&["run", "--plain", "-r", reading, &text, &events]).good();
        let of_file = desk(&["run", "--plain", "-r", reading, &file, &events]).good();
        assert_eq!(of_text.text(), of_file.text());
    }
}

#[test]
fn clean_names_what_went() {
    let text = b"input A\noutput R\nlocation in\nlocation never\nat in\n  any -> in\n  A -> never\nat never\n  any -> in\n";
    let folder = Folder::new();
    let path = folder.file("text", text);
    let said = desk(&["clean", "-r", "1", &path, "-o", &folder.path("cleaned")]).good();
    assert_eq!(
        said.text(),
        "location never: no permitted stream from the start leads to it\n\
         rule 1 (line 7): decides no event in any state such a stream leads to\n\
         rule 2 (line 9): of such a location\nleft 16 bytes\n"
    );
}

#[test]
fn each_refusal_of_a_text_has_its_line() {
    let refused: [(&[u8], &str); 12] = [
        (
            b"clock a 0\n",
            "refused 4: a ceiling is 0 or above 1,001: line 1: clock a 0",
        ),
        (
            b"clock a 3\nlocation q\nat q\n a >= 3 a <= 2 -> q\n",
            "refused 7: a rule's bounds break the rules of the file: line 4: a >= 3 a <= 2 -> q",
        ),
        (b"\n\tinput\n", "line 2: input"),
        (b"input A\ninput a\n", "refused 30"),
        (b"input A\ninput A\n", "refused 31"),
        (b"location q\nat p\n", "refused 31"),
        (
            b"clock a 65536\n",
            "refused 32: a number is above 65,535: line 1",
        ),
        (
            b"input A\ninput B\ninput C\ninput D\ninput E\n",
            "refused 33",
        ),
        (b"location p\nlocation q\nat q\nat p\n", "refused 34"),
        (
            b"# nothing but a comment\n",
            "refused 2: a count is outside its limits: there is no location\n",
        ),
        (
            b"clock a 1001\nclock b 1001\nlocation q\n",
            "refused 9: there are more than 65,536 states\n",
        ),
        (
            b"location q\nat q\n \x01\x1b[2J\xff -> q\n",
            "line 3:   [2J",
        ),
    ];
    for (text, words) in refused {
        desk_reading(&["check", "-"], text).bad(1, words);
        desk_reading(&["compile", "-", "-o", "-"], text).bad(1, words);
    }
}

#[test]
fn a_text_may_be_long_and_has_an_end() {
    let folder = Folder::new();
    let mut long = b"# a comment\n".repeat(100_000);
    long.extend_from_slice(VALVE);
    let said = desk(&["check", &folder.file("long", &long)]).good();
    assert!(said.text().contains("5 rules, 14 states"));
    let endless = b" ".repeat((1 << 24) + 1);
    desk(&["check", &folder.file("endless", &endless)])
        .bad(1, "a policy's text has at most 16777216 bytes");
}

#[test]
fn spoilt_texts_have_a_line_each() {
    let folder = Folder::new();
    let mut random = Random::new(32);
    let (mut refused, mut read) = (0, 0);
    for _ in 0..50 {
        let texts: Vec<Vec<u8>> = (0..80).map(|_| spoilt(&mut random, VALVE)).collect();
        let paths: Vec<String> = texts
            .iter()
            .enumerate()
            .map(|(number, text)| folder.file(&format!("text{number}"), text))
            .collect();
        let words: Vec<&str> = ["check"]
            .into_iter()
            .chain(paths.iter().map(String::as_str))
            .collect();
        let said = desk(&words);
        for path in &paths {
            let start = format!("groovepawn: {path}: ");
            let told: Vec<&str> = said
                .err
                .lines()
                .filter(|line| line.starts_with(&start))
                .collect();
            match told[..] {
                [] => {
                    assert!(said.text().contains(&format!("{path}: inputs")));
                    read += 1;
                }
                [line] => {
                    // Of the whole: no location; of a file: what a low first byte begins.
                    let place = [
                        "line ",
                        "no location",
                        "byte ",
                        "under reading",
                        "under both",
                    ];
                    assert!(place.iter().any(|place| line.contains(place)), "{line}");
                    refused += 1;
                }
                _ => panic!("{told:?}"),
            }
        }
    }
    assert!(
        refused > 1_500 && read > 100,
        "{refused} refused, {read} read"
    );
}

#[test]
fn a_refusal_says_what_is_wrong_with_the_line() {
    let head =
        "input C credit\noutput V valve\nclock age 6\nlocation idle\nlocation open\nat idle\n";
    let hints = [
        (
            " vlave -> open\n",
            "'vlave' is no signal or clock; there are credit (C) valve (V) age",
        ),
        (
            " valve -> opened\n",
            "'opened' is no location; there are idle open",
        ),
        (" valve C C -> open\n", "C is there twice"),
        (
            " valve -> open reset ages\n",
            "'ages' is no clock; there are age",
        ),
        (" valve age <= 9 -> open\n", "the ceiling of age is 6"),
        (
            " valve age < 5 -> open\n",
            "behind the clock age stands <= or >=",
        ),
        (" valve open\n", "'open' is no signal or clock"),
        (" valve\n", "a rule has an arrow"),
        (
            "at opened\n",
            "'opened' is no location; there are idle open",
        ),
        (
            "at open\nat idle\n",
            "the rules stand in the order of the locations: idle, open",
        ),
        (
            "clock late 3\n",
            "the order is input, output, clock, location, at",
        ),
    ];
    for (line, words) in hints {
        let text = format!("{head}{line}");
        desk_reading(&["check", "-"], text.as_bytes())
            .bad(1, "\n  ")
            .bad(1, words);
    }
    let first = [
        ("input c credit\n", "'c' is no capital letter"),
        ("input C Credit\n", "'Credit' is no name"),
        ("input C at\n", "at is a word of the language"),
        ("input C credit\ninput C pulse\n", "the letter C is taken"),
        (
            "input C credit\ninput P credit\n",
            "the name credit is taken",
        ),
        ("clock age 70000\n", "at most 1,001"),
        ("clock age\n", "the form is clock NAME CEILING"),
        ("location q must leave\n", "location NAME must be left"),
        ("valve -> open\n", "no at stands before this rule"),
        (
            "input A\ninput B\ninput C\ninput D\ninput E\n",
            "there are 4 inputs at most",
        ),
    ];
    for (text, words) in first {
        desk_reading(&["check", "-"], text.as_bytes()).bad(1, words);
    }
}

#[test]
fn what_is_read_is_not_written_over() {
    let folder = Folder::new();
    let text = folder.file("valve", VALVE);
    let events = folder.file("events", b"V\n");
    let calls: [&[&str]; 6] = [
        &["compile", &text, "-o", &text],
        &["show", &text, "-o", &text],
        &["clean", "-r", "1", &text, "-o", &text],
        &["join", &text, &text, "-o", &text],
        &["draw", &text, "-o", &text],
        &["wave", &text, &events, "-o", &events],
    ];
    for call in calls {
        desk(call).bad(2, "is read, and would be lost");
    }
    assert_eq!(fs::read(&text).expect("it is there"), VALVE);
    assert_eq!(fs::read(&events).expect("it is there"), b"V\n");
}

#[test]
fn join_tells_one_letter_with_two_names() {
    let folder = Folder::new();
    let one = folder.file("one", b"output V valve\nlocation q\nat q\n any -> q\n");
    let two = folder.file("two", b"output V vent\nlocation q\nat q\n any -> q\n");
    let said = desk(&["join", &one, &two, "-o", &folder.path("joined")]);
    assert_eq!(said.status, Some(0));
    assert_eq!(
        said.err,
        format!("groovepawn: note: V is vent in {two} and valve in {one}\n")
    );
}
