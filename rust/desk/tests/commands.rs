//! Every command with what is good, bad, empty, cut and too long; statuses and words.

mod common;

use common::random::{policy, Random};
use common::samples::{D, DOORS, K, N, S, T};
use common::{desk, desk_reading, Folder};
use groovepawn::{Policy, Reading};

#[test]
fn check_tells_states_and_verdicts() {
    let folder = Folder::new();
    let (d, t) = (folder.file("d", D), folder.file("t", T));
    let said = desk(&["check", &d, &t]).good();
    let live = "every state that a permitted stream leads to is live";
    let not = "some state that a permitted stream leads to is not live";
    let expected = format!(
        "{d}: inputs R, outputs C, 1 clock, 2 locations, 4 rules, 8 states\n  \
         reading 1: 8 live, verdict 0: {live}\n  reading 2: 8 live, verdict 0: {live}\n\
         {t}: inputs A, outputs B, 0 clocks, 2 locations, 2 rules, 2 states\n  \
         reading 1: 1 live, verdict 1: {not}\n  reading 2: 1 live, verdict 1: {not}\n"
    );
    assert_eq!(said.text(), expected);
    let one = desk(&["check", "-r", "2", &t]).good();
    assert!(one.text().contains("reading 2") && !one.text().contains("reading 1"));
}

#[test]
fn check_goes_on_after_one_that_is_wrong() {
    let folder = Folder::new();
    let (n, d) = (folder.file("n", N), folder.file("d", D));
    let cut = folder.file("cut", &D[..20]);
    let said = desk(&["check", &n, &cut, &d]);
    assert_eq!(said.status, Some(1));
    assert!(said.text().contains("0 live, hopeless") && said.text().contains("8 live"));
    assert!(said.err.contains("refused 11") && said.err.contains("refused 1:"));
    desk(&["check", &folder.file("empty", b"")])
        .bad(1, "refused 1: a count or its section is cut short: byte 0");
    desk(&["check", &folder.file("long", &vec![0; 1 << 20])]).bad(1, "refused 2");
    desk(&["check"]).bad(2, "usage: groovepawn check");
}

#[test]
fn a_text_is_told_from_a_file() {
    let folder = Folder::new();
    desk(&["check", &folder.file("text", b"input A\n")]).bad(1, "refused 2");
    desk(&["check", &folder.file("eight", &[8])])
        .bad(1, "refused 2: a count is outside its limits: byte 0");
    desk(&["check", &folder.file("nine", &[9])]).bad(1, "refused 2");
    desk(&["check", &folder.file("letters", b"gate A\n")])
        .bad(1, "refused 30")
        .bad(1, "line 1: gate A");
}

#[test]
fn join_writes_what_both_ask() {
    let folder = Folder::new();
    let (d, t) = (folder.file("d", D), folder.file("t", T));
    let out = folder.path("joined");
    desk(&["join", &d, &d, "-o", &out]).good();
    desk(&["check", &out]).good();
    let cleaned = folder.path("cleaned");
    desk(&["join", "--clean", "-r", "1", &d, &d, "-o", &cleaned]).good();
    let length = |path: &str| std::fs::metadata(path).expect("it was written").len();
    assert!(length(&cleaned) < length(&out));
    desk(&["join", &d, &t, "-o", &out])
        .bad(1, "refused 12")
        .bad(1, "inputs 'R' and outputs 'C', against inputs 'A'");
    let many = desk(&["join", &d, &d, &d, &d, &d, "-o", &out]);
    many.bad(1, "(policy 5): refused 13").bad_words(&[
        "5 clocks, and 4 is the most",
        "454 rules, and 256 is the most",
    ]);
    desk(&["join", &d, "-o", &out]).good();
    desk(&["join", "-o", &out]).bad(2, "usage: groovepawn join");
    desk(&["join", &d, &d]).bad(2, "-o FILE is missing");
    desk(&["join", "--clean", &d, &d, "-o", &out]).bad(2, "--clean needs the reading");
    desk(&["join", "-r", "1", &d, &d, "-o", &out]).bad(2, "a join has no reading");
}

#[test]
fn clean_says_what_went() {
    let folder = Folder::new();
    let doors = folder.file("doors", DOORS);
    let out = folder.path("cleaned");
    let said = desk(&["clean", "-r", "1", &doors, "-o", &out]).good();
    let expected = "location 1: no permitted stream from the start leads to it\n\
                    rule 1: decides no event in any state such a stream leads to\n\
                    rule 2: of such a location\nleft 31 bytes\n";
    assert_eq!(said.text(), expected);
    let again = folder.path("again");
    assert_eq!(
        desk(&["clean", "-r", "1", &out, "-o", &again])
            .good()
            .text(),
        "left 31 bytes\n"
    );
    desk(&["clean", &doors, "-o", &out]).bad(2, "-r 1|2 is missing");
    desk(&["clean", "-r", "3", &doors, "-o", &out]).bad(2, "-r is 1 or 2, not 3");
    desk(&[
        "clean",
        "-r",
        "1",
        &folder.file("cut", &DOORS[..9]),
        "-o",
        &folder.path("none"),
    ])
    .bad(1, "refused 1");
    assert!(!folder.names().contains(&"none".to_string()));
}

#[test]
fn run_prints_events_that_run_again_unchanged() {
    let folder = Folder::new();
    let d = folder.file("d", D);
    let said = desk_reading(&["run", &d, "-"], b"R\n- * 4 # nothing\n\n# a comment\n").good();
    let expected = "# reading 1, verdict 0, 8 states, 8 live\n\
                    R    # 1\n-    # 2\n-    # 3\n-    # 4\nC    # 5: read -, output edited\n";
    assert_eq!(said.text(), expected);
    let again = desk_reading(&["run", &d, "-"], &said.out).good();
    assert_eq!(
        again.text(),
        expected.replace(": read -, output edited", "")
    );
    let second = desk_reading(&["run", "-r", "2", &d, "-"], b"R\n-*4").good();
    assert!(second.text().contains("C    # 4: read -, output edited"));
}

#[test]
fn run_reads_and_writes_bytes() {
    let folder = Folder::new();
    let k = folder.file("k", K);
    let said = desk_reading(&["run", "--bytes", &k, "-"], &[0, 0, 0, 0x10]).good();
    assert_eq!(said.out, [0, 0, 0, 0]);
    assert_eq!(
        desk_reading(&["run", "--bytes", &k, "-"], b"").good().out,
        b""
    );
    let refused = desk_reading(&["run", "--bytes", &k, "-"], &[0, 0x10, 0x20, 0]);
    let refused = refused.bad(1, "refused 15").bad(1, "tick 3, event 0x20");
    assert_eq!(refused.out, [0, 0x10]);
    // A clock that wraps would take the last event.
    let mut long = vec![0; 65_537];
    long.push(0x10);
    assert_eq!(
        desk_reading(&["run", "--bytes", &k, "-"], &long).good().out,
        vec![0; 65_538]
    );
}

#[test]
fn run_plain_prints_as_enforce_does() {
    let folder = Folder::new();
    let t = folder.file("t", T);
    let said = desk_reading(&["run", "--plain", "--bytes", &t, "-"], &[0x01, 0x11]).good();
    assert_eq!(
        said.text(),
        "verdict 1 states 2 live 1\n1 1 0 0 0 EF\n2 1 1 0 1 EF\n"
    );
    let refused =
        desk_reading(&["run", "--plain", "--bytes", &t, "-"], &[0, 4]).bad(1, "tick 2, event 0x04");
    assert_eq!(refused.text(), "refused 15\n");
    let hopeless = desk(&["run", "--plain", &folder.file("n", N), "-"]).bad(1, "refused 11");
    assert_eq!(hopeless.text(), "refused 11\n");
    let cut = desk(&["run", "--plain", &folder.file("cut", &T[..5]), "-"]).bad(1, "byte 5");
    assert_eq!(cut.text(), "refused 1\n");
}

#[test]
fn events_that_are_wrong_are_told_by_their_line() {
    let folder = Folder::new();
    let s = folder.file("s", S);
    let told = |events: &[u8], words: &str| desk_reading(&["run", &s, "-"], events).bad(1, words);
    told(
        b"A\n\n- * 5\nQ\n",
        "line 4: tick 7: no signal Q; there are A B R",
    );
    told(b"AB\n", "no signal AB");
    told(b"A A\n", "line 1: A is there twice");
    told(b"- A\n", "no signal -");
    told(b"* 3\n", "no event before the *");
    told(b"A * 0\n", "'0' is no count of ticks");
    told(b"A * 99999999999999999999\n", "is no count of ticks");
    told(b"A * 2 3\n", "'2 3' is no count of ticks");
    told(b"\xff\xfe\n", "line 1: it is no text");
    told(&vec![b'A'; 100_000], "line 1: it is longer than 4096 bytes");
    // What comes before is released.
    assert!(told(b"A\nQ\n", "line 2").text().ends_with("A      # 1\n"));
}

#[test]
fn why_tells_edited_ticks_between_two() {
    let folder = Folder::new();
    let t = folder.file("t", T);
    let events = b"A\n-\nA B\nA\n";
    let said = desk_reading(&["why", &t, "-"], events).good();
    let expected = "tick 1: read A, released -\n  input: after it at most 0 more ticks\n\
                    tick 3: read A B, released B\n  input: after it at most 0 more ticks\n\
                    tick 4: read A, released -\n  input: after it at most 0 more ticks\n\
                    3 of 4 ticks edited under reading 1\n";
    assert_eq!(said.text(), expected);
    let some = desk_reading(&["why", "--from", "2", "--to", "3", &t, "-"], events).good();
    assert!(
        some.text().starts_with("tick 3")
            && some
                .text()
                .ends_with("1 of 2 ticks edited under reading 1\n")
    );
    let behind = desk_reading(&["why", "--from", "9", &t, "-"], events).good();
    assert_eq!(behind.text(), "the events end at tick 4\n");
    desk(&["why", "--from", "3", "--to", "2", &t, "-"]).bad(2, "--to is before --from");
    desk(&["why", "--from", "0", &t, "-"]).bad(2, "counted from 1");
    desk(&["why", &folder.file("n", N), "-"]).bad(1, "refused 11");
}

#[test]
fn why_names_the_rule() {
    let folder = Folder::new();
    let (s, k) = (folder.file("s", S), folder.file("k", K));
    let said = desk_reading(&["why", &s, "-"], b"A B\nB R\n").good();
    assert!(said.text().contains(
        "input: no output will do; with none on, rule 0 forbids it: at location 0, A B on\n"
    ));
    assert!(said
        .text()
        .contains("output: rule 1 forbids it: at location 0, B R on\n"));
    let said = desk_reading(&["why", &k, "-"], b"- * 3\nK\n").good();
    assert!(said
        .text()
        .contains("output: rule 0 forbids it: at location 0, K on, clock 0 from 3 on\n"));
}

#[test]
fn wave_writes_what_is_released() {
    let folder = Folder::new();
    let d = folder.file("d", D);
    let out = folder.path("d.vcd");
    desk_reading(&["wave", &d, "-", "-o", &out], b"R\n-*4").good();
    let expected = "$timescale 100 ms $end\n$var wire 1 R R $end\n$var wire 1 C C $end\n$enddefinitions $end\n\
                    #0\n1R\n0C\n#1\n0R\n#4\n1C\n#5\n";
    assert_eq!(
        std::fs::read_to_string(&out).expect("it was written"),
        expected
    );
    let all = desk_reading(&["wave", "--all", &d, "-", "-o", "-"], b"R\n-*4").good();
    for line in [
        "$var wire 1 c C_read $end",
        "$var wire 1 > output_edited $end",
        "#4\n1C\n1>\n#5\n",
    ] {
        assert!(all.text().contains(line), "{}", all.text());
    }
    let none = desk_reading(&["wave", "--all", &d, "-", "-o", "-"], b"").good();
    assert!(none.text().ends_with("$enddefinitions $end\n#0\n"));
}

#[test]
fn a_wave_that_is_too_long_is_refused_and_not_written() {
    let folder = Folder::new();
    let d = folder.file("d", D);
    let out = folder.path("d.vcd");
    desk_reading(&["wave", &d, "-", "-o", &out], b"- * 16384").good();
    let long = folder.path("long.vcd");
    desk_reading(&["wave", &d, "-", "-o", &long], b"- * 16385").bad(1, "refused 29");
    desk_reading(&["wave", &d, "-", "-o", &long], b"- * 9\nQ").bad(1, "tick 10: no signal Q");
    assert_eq!(folder.names(), ["d", "d.vcd"]);
    desk_reading(&["wave", "--all", &d, "-", "-o", &long], b"- * 200000").good();
    assert!(std::fs::read_to_string(&long)
        .expect("it was written")
        .ends_with("\n#200000\n"));
    desk(&["wave", &d, "-"]).bad(2, "-o FILE is missing");
}

#[test]
fn draw_sets_apart_what_is_apart() {
    let folder = Folder::new();
    let doors = folder.file("doors", DOORS);
    let said = desk(&["draw", &doors]).good();
    for line in [
        "digraph policy {",
        "  q1 [style=dashed, color=gray60, fontcolor=gray60];",
        "  q2 [shape=doublecircle];",
        "  q2 -> v3 [label=\"3: R -> violation\", color=red3, fontcolor=red3];",
        "  q0 -> q1 [label=\"1: A -> q1\", style=dashed, color=gray60, fontcolor=gray60];",
    ] {
        assert!(said.text().contains(line), "{}", said.text());
    }
    desk(&["draw", &folder.file("cut", &DOORS[..3])]).bad(1, "refused 1");
    desk(&["draw"]).bad(2, "usage: groovepawn draw");
}

#[test]
fn firmware_writes_constants() {
    let folder = Folder::new();
    let said = desk(&["firmware", &folder.file("t", T)]).good();
    assert!(said.text().contains("#define POLICY_READING 1"));
    assert!(said
        .text()
        .contains("static const uint8_t marks[] = {\n    1, 0,\n};"));
    assert!(said
        .text()
        .contains("static const uint16_t rule_index[] = {\n    0, 2, 2, 0, 0,"));
    desk(&["firmware", &folder.file("n", N)]).bad(1, "refused 11");
    let second = desk(&["firmware", "-r", "2", &folder.file("d", D)]).good();
    assert!(second.text().contains("#define POLICY_READING 2"));
}

#[test]
fn ticks_are_rounded_as_asked() {
    let ticks = |words: &[&str]| desk(&[&["ticks"], words].concat());
    assert_eq!(
        ticks(&["250ms", "--tick", "100ms", "--down"]).good().text(),
        "2\n"
    );
    assert_eq!(
        ticks(&["250ms", "--tick", "100ms", "--up"]).good().text(),
        "3\n"
    );
    assert_eq!(
        ticks(&["2min", "--tick", "1s", "--up"]).good().text(),
        "120\n"
    );
    ticks(&["100001ms", "--tick", "100ms", "--up"])
        .bad(1, "refused 19: the tick count is above 1,000");
    ticks(&["1ms", "--tick", "0ms", "--up"]).bad(1, "refused 18: the tick length is 0");
    ticks(&["250", "--tick", "100ms", "--up"]).bad(2, "250 is no time");
    ticks(&["ms", "--tick", "100ms", "--up"]).bad(2, "ms is no time");
    ticks(&["5000000000ms", "--tick", "1ms", "--up"]).bad(2, "more than 4294967295 ms");
    ticks(&["99999999999999999999999min", "--tick", "1ms", "--up"]).bad(2, "is no time");
    ticks(&["1ms", "--tick", "1ms"]).bad(2, "one of --down and --up");
    ticks(&["1ms", "--up"]).bad(2, "--tick LENGTH is missing");
}

#[test]
fn help_and_version_are_there_for_all() {
    let commands = [
        "check", "join", "clean", "run", "why", "wave", "draw", "firmware", "live", "ticks",
    ];
    let page = desk(&["--help"]).good();
    let man = desk(&["--man"]).good();
    assert!(man.text().starts_with(".TH GROOVEPAWN 1"));
    for command in commands {
        assert!(page.text().contains(&format!("  groovepawn {command} ")));
        assert!(man.text().contains(&format!("\n.SS {command} ")));
        let of_command = desk(&[command, "-h"]).good();
        assert!(of_command
            .text()
            .starts_with(&format!("usage: groovepawn {command} ")));
        assert_eq!(desk(&["help", command]).good().text(), of_command.text());
        let longest = of_command.text().lines().skip(1).map(str::len).max();
        assert!(longest <= Some(80), "{}", of_command.text());
    }
    assert!(desk(&["--version"])
        .good()
        .text()
        .starts_with("groovepawn "));
    desk(&[]).bad(2, "no command");
    desk(&["sing"]).bad(2, "no command sing; there are check, compile");
    desk(&["run", "--sing", "a", "b"]).bad(2, "there is no option --sing");
    desk(&["run", "a"]).bad(2, "usage: groovepawn run");
    desk(&["run", "-r"]).bad(2, "-r needs 1|2 behind it");
    desk(&["run", "-r", "1", "-r", "2", "a", "b"]).bad(2, "-r is there twice");
    desk(&["run", "-", "-"]).bad(2, "standard input can be read once");
    desk(&["check", "--", "-r"]).bad(1, "-r: No such file");
}

#[test]
fn lines_may_end_as_on_another_system() {
    let folder = Folder::new();
    let s = folder.file("s", S);
    let said = desk_reading(&["run", &s, "-"], b"A\r\n- * 2\r\n\r\nR").good();
    assert_eq!(said.text().lines().count(), 1 + 4);
}

#[test]
fn what_never_ends_is_told_by_its_beginning() {
    let folder = Folder::new();
    let s = folder.file("s", S);
    desk(&["check", "/dev/zero"]).bad(1, "byte 3: 0 locations");
    desk(&["run", &s, "/dev/zero"]).bad(1, "line 1: it is longer than 4096 bytes");
}

#[test]
fn a_drawing_has_each_rule_once_and_a_join_is_the_librarys() {
    let folder = Folder::new();
    let mut random = Random::new(13);
    let mut joins = 0;
    for _ in 0..40 {
        let file = policy(&mut random);
        let checked = Policy::check(&file).expect("it is made to pass");
        let path = folder.file("policy", &file);
        let drawn = desk(&["draw", &path]).good();
        for (number, rule) in checked.rules().iter().enumerate() {
            let from = format!("  q{} -> ", rule.source);
            let label = format!("[label=\"{number}: ");
            let lines = drawn
                .text()
                .lines()
                .filter(|line| line.starts_with(&from) && line.contains(&label));
            assert_eq!(lines.count(), 1, "{}", drawn.text());
        }
        let out = folder.path("joined");
        let said = desk(&["join", "--clean", "-r", "2", &path, &path, "-o", &out]);
        let cleaned = |policy: &Policy| {
            policy
                .clean(Reading::AfterCounting)
                .map(|cleaned| cleaned.policy)
        };
        let part = cleaned(&checked).expect("it passed its check");
        match part.join(&part).and_then(|both| cleaned(&both)) {
            Ok(joined) => {
                said.good();
                assert_eq!(std::fs::read(&out).expect("it was written"), joined.bytes());
                joins += 1;
            }
            Err(refusal) => drop(said.bad(1, &format!("(policy 2): {refusal}"))),
        }
    }
    assert!(joins > 10, "{joins} joined");
}

impl common::Done {
    fn bad_words(&self, words: &[&str]) {
        for words in words {
            assert!(self.err.contains(words), "{:?} has no {words:?}", self.err);
        }
    }
}
