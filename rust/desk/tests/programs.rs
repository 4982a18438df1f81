//! The desk against the proved programs, on random policies and events. The folder of
//! the programs is `target/bin` at the top, or the one that `GROOVEPAWN_PROGRAMS` names.

mod common;

use std::path::PathBuf;
use std::process::Command;

use common::random::{events, policy, spoilt, Random};
use common::{desk, desk_reading, fed, Folder};

const CASES: usize = 250;

fn proved(name: &str) -> Command {
    let folder = match std::env::var_os("GROOVEPAWN_PROGRAMS") {
        Some(folder) => PathBuf::from(folder),
        None => PathBuf::from(env!("CARGO_MANIFEST_DIR")).join("../../target/bin"),
    };
    let path = folder.join(name);
    let words =
        "`tools/build.sh enforce why wave clean compile show` makes it, or GROOVEPAWN_PROGRAMS names its folder";
    assert!(path.is_file(), "{} is not there: {words}", path.display());
    Command::new(path)
}

/// What a proved program prints for a policy and events.
fn printed(program: Command, file: &[u8], events: &[u8]) -> Vec<u8> {
    let count = |bytes: &[u8]| (bytes.len() as u16).to_be_bytes().to_vec();
    fed(
        program,
        &[&count(file), file, &count(events), events].concat(),
    )
    .stdout
}

/// A proved program under a reading.
fn under(name: &str, reading: &str) -> Command {
    let mut program = proved(name);
    program.arg(reading);
    program
}

/// Random events, of which some have a bit beyond the signals.
fn any_events(random: &mut Random, file: &[u8]) -> Vec<u8> {
    let count = random.below(60);
    let mut events = events(random, file, count);
    if random.one_in(10) && !events.is_empty() {
        let place = random.below(events.len());
        events[place] = random.next() as u8;
    }
    events
}

#[test]
fn run_plain_prints_what_enforce_prints() {
    let folder = Folder::new();
    let mut random = Random::new(1);
    let mut refused = 0;
    for _ in 0..CASES {
        let file = policy(&mut random);
        let events = any_events(&mut random, &file);
        let path = folder.file("policy", &file);
        let said = desk_reading(&["run", "--plain", "--bytes", &path, "-"], &events);
        assert_eq!(
            said.out,
            printed(proved("enforce"), &file, &events),
            "{file:?} {events:?}"
        );
        let is_refused = said.out.starts_with(b"refused");
        assert_eq!(said.status, Some(i32::from(is_refused)));
        refused += usize::from(is_refused);
    }
    assert!(
        (CASES / 20..CASES * 3 / 4).contains(&refused),
        "{refused} of {CASES} refused"
    );
}

#[test]
fn run_plain_prints_what_enforce_prints_for_the_longest_stream() {
    let folder = Folder::new();
    let file = common::samples::D;
    let path = folder.file("policy", file);
    let mut stream = events(&mut Random::new(2), file, 16_384);
    let said = desk_reading(&["run", "--plain", "--bytes", &path, "-"], &stream).good();
    assert_eq!(said.out, printed(proved("enforce"), file, &stream));
    stream[16_383] = 0x22;
    let said = desk_reading(&["run", "--plain", "--bytes", &path, "-"], &stream)
        .bad(1, "tick 16384, event 0x22");
    assert_eq!(said.out, printed(proved("enforce"), file, &stream));
}

#[test]
fn why_gives_the_reasons_of_why() {
    let folder = Folder::new();
    let mut random = Random::new(3);
    let mut reasons = 0;
    for case in 0..CASES {
        let reading = ["1", "2"][case % 2];
        let file = policy(&mut random);
        let events = events(&mut random, &file, 40);
        let path = folder.file("policy", &file);
        let said = desk_reading(&["why", "-r", reading, "--bytes", &path, "-"], &events);
        let proved = String::from_utf8(printed(under("why", reading), &file, &events))
            .expect("it prints text");
        let ours: Vec<&str> = said
            .text()
            .lines()
            .filter_map(|line| line.strip_prefix("  "))
            .collect();
        let theirs: Vec<&str> = proved
            .lines()
            .filter(|line| line.contains("put: "))
            .collect();
        assert_eq!(ours, theirs, "{file:?} {events:?}");
        let ticks = |text: &str, of: fn(&str) -> Option<&str>| -> Vec<String> {
            text.lines().filter_map(of).map(str::to_string).collect()
        };
        let our_ticks = ticks(said.text(), |line| {
            line.strip_prefix("tick ")?.split(':').next()
        });
        let their_ticks = ticks(&proved, |line| {
            if line.ends_with('E') || line.ends_with("EF") {
                line.split(' ').next()
            } else {
                None
            }
        });
        assert_eq!(our_ticks, their_ticks);
        reasons += ours.len();
    }
    assert!(reasons > CASES, "{reasons} reasons");
}

#[test]
fn wave_writes_what_wave_writes() {
    let folder = Folder::new();
    let mut random = Random::new(4);
    for case in 0..CASES / 5 {
        let reading = ["1", "2"][case % 2];
        let file = policy(&mut random);
        let events = events(&mut random, &file, 40);
        let path = folder.file("policy", &file);
        let said = desk_reading(
            &["wave", "-r", reading, "--bytes", &path, "-", "-o", "-"],
            &events,
        );
        let proved = printed(under("wave", reading), &file, &events);
        if said.status == Some(0) {
            assert_eq!(said.out, proved);
        } else {
            assert!(proved.starts_with(b"refused 11"), "{}", said.err);
        }
    }
}

#[test]
fn clean_writes_what_clean_writes() {
    let folder = Folder::new();
    let mut random = Random::new(5);
    for case in 0..CASES / 5 {
        let file = folder.file("policy", &policy(&mut random));
        let (ours, theirs) = (folder.path("ours"), folder.path(&format!("theirs{case}")));
        let reading = ["1", "2"][random.below(2)];
        let said = desk(&["clean", "-r", reading, &file, "-o", &ours]).good();
        let mut clean = proved("clean");
        clean.args([reading, &file, &theirs]);
        assert_eq!(said.out, fed(clean, b"").stdout);
        let written = |path: &str| std::fs::read(path).expect("it was written");
        assert_eq!(written(&ours), written(&theirs));
    }
}

#[test]
fn compile_and_show_do_what_compile_and_show_do() {
    let folder = Folder::new();
    let mut random = Random::new(6);
    let (mut refused, mut compiled) = (0, 0);
    for case in 0..CASES / 2 {
        let file = folder.file("policy", &policy(&mut random));
        let shown = desk(&["show", &file]).good();
        let mut show = proved("show");
        show.arg(&file);
        assert_eq!(shown.out, fed(show, b"").stdout);
        let text = match case % 3 {
            0 => shown.out,
            _ => spoilt(&mut random, &shown.out),
        };
        // What begins below a tab is a file to the desk.
        if text.first().is_none_or(|&first| first < 9) {
            continue;
        }
        let text = folder.file("text", &text);
        let (ours, theirs) = (
            folder.path(&format!("ours{case}")),
            folder.path(&format!("theirs{case}")),
        );
        let said = desk(&["compile", &text, "-o", &ours]);
        let mut compile = proved("compile");
        compile.args([&text, &theirs]);
        let printed = String::from_utf8(fed(compile, b"").stdout).expect("text is printed");
        match said.status {
            Some(0) => {
                compiled += 1;
                let written = std::fs::read(&ours).expect("it was written");
                assert_eq!(written, std::fs::read(&theirs).expect("it was written"));
                assert_eq!(printed, format!("compiled {} bytes\n", written.len()));
            }
            _ => {
                refused += 1;
                let words: Vec<&str> = printed.split_whitespace().collect();
                let ["refused", number, "line", line] = words[..] else {
                    panic!("{printed}");
                };
                let place = if line == "0" {
                    String::new()
                } else {
                    format!("line {line}: ")
                };
                said.bad(1, &format!("refused {number}: ")).bad(1, &place);
            }
        }
    }
    assert!(
        compiled > 40 && refused > 20,
        "{compiled} compiled, {refused} refused"
    );
}
