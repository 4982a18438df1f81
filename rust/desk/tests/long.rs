//! Long records: what is kept in memory does not grow with them, and they take no
//! longer than they must.

mod common;

use std::fs;
use std::io::{Read, Write};
use std::process::Stdio;
use std::thread;
use std::time::{Duration, Instant};

use common::random::{events, Random};
use common::samples::{D, THOUSAND};
use common::{desk, program, Folder};
use groovepawn::{Policy, Reading, Station};

const MILLION: usize = 1_000_000;

/// A day at 100 ms.
const DAY: usize = 864_000;

/// The most memory that a process has had, in kilobytes.
fn peak(process: u32) -> u64 {
    let status = fs::read_to_string(format!("/proc/{process}/status")).expect("it is running");
    let line = status
        .lines()
        .find(|line| line.starts_with("VmHWM:"))
        .expect("the system counts it");
    line.split_whitespace()
        .nth(1)
        .and_then(|number| number.parse().ok())
        .expect("it is a number")
}

/// Puts events to the program by a pipe: what it writes, and the most memory it had
/// before the end of its input.
fn through(words: &[&str], input: &[u8]) -> (Vec<u8>, u64) {
    let mut child = program()
        .args(words)
        .stdin(Stdio::piped())
        .stdout(Stdio::piped())
        .spawn()
        .expect("it starts");
    let mut stdout = child.stdout.take().expect("it is piped");
    let reader = thread::spawn(move || {
        let mut out = Vec::new();
        stdout.read_to_end(&mut out).map(|_| out)
    });
    let mut stdin = child.stdin.take().expect("it is piped");
    stdin.write_all(input).expect("it reads");
    let peak = peak(child.id());
    drop(stdin);
    assert!(child.wait().expect("it ends").success());
    (reader.join().expect("no panic").expect("it writes"), peak)
}

/// What the library releases in one run.
fn released(file: &[u8], events: &[u8]) -> Vec<u8> {
    let policy = Policy::check(file).expect("a sample passes its check");
    let (marks, _) = policy
        .prepare(Reading::AtStart)
        .expect("a sample is not hopeless");
    let mut released = vec![0; events.len()];
    Station::new(&policy, &marks)
        .run(events, &mut released)
        .expect("events have no other signals");
    released
}

#[test]
fn a_million_ticks_take_little_memory() {
    let folder = Folder::new();
    let path = folder.file("policy", D);
    let stream = events(&mut Random::new(6), D, MILLION);
    let (out, bytes) = through(&["run", "--bytes", &path, "-"], &stream);
    assert!(out == released(D, &stream), "the pieces are not the whole");
    let (lines, text) = through(
        &["run", &path, "-"],
        "R C * 3\n-\nR\n".repeat(MILLION / 5).as_bytes(),
    );
    assert_eq!(
        lines.iter().filter(|&&byte| byte == b'\n').count(),
        MILLION + 1
    );
    println!("a million ticks: {bytes} kB with --bytes, {text} kB as text");
    assert!(bytes <= 32_768 && text <= 32_768, "{bytes} kB, {text} kB");
}

#[test]
fn a_repeated_line_takes_no_memory() {
    let folder = Folder::new();
    let path = folder.file("policy", D);
    let wave = folder.path("long.vcd");
    let events = folder.file("events", b"- * 20000000\nR\n");
    desk(&["wave", "--all", &path, &events, "-o", &wave]).good();
    let text = fs::read_to_string(&wave).expect("it was written");
    assert!(text.ends_with("#20000000\n1R\n1r\n#20000001\n"), "{text}");
}

#[test]
fn why_reaches_any_tick_of_a_day() {
    let folder = Folder::new();
    let path = folder.file("policy", THOUSAND);
    // C once, and V on every tenth tick: from the tenth tick on V is turned off.
    let stream: Vec<u8> = (0..DAY)
        .map(|tick| {
            if tick == 0 {
                1
            } else if tick % 10 == 9 {
                0x10
            } else {
                0
            }
        })
        .collect();
    let record = folder.file("record", &stream);
    let begun = Instant::now();
    let said = desk(&["why", "--bytes", &path, &record]).good();
    let took = begun.elapsed();
    println!(
        "why for a day, every tenth tick edited, {} states: {took:?}",
        1_002
    );
    assert!(
        said.text()
            .ends_with("86399 of 864000 ticks edited under reading 1\n"),
        "{:?}",
        said.text().lines().last()
    );
    assert!(took < Duration::from_secs(10), "{took:?}");
    let one = desk(&[
        "why", "--bytes", "--from", "863999", "--to", "864000", &path, &record,
    ])
    .good();
    let expected = "tick 864000: read V, released -\n  \
                    output: rule 1 forbids it: at location 0, V on, clock 0 from 9 on\n1 of 2 ticks edited under reading 1\n";
    assert_eq!(one.text(), expected);
}

/// The shortest of three times: others work on the machine too.
fn shortest(mut work: impl FnMut()) -> Duration {
    let times = (0..3).map(|_| {
        let begun = Instant::now();
        work();
        begun.elapsed()
    });
    times.min().expect("there are three")
}

#[test]
fn a_run_has_at_least_half_the_speed_of_the_library() {
    let folder = Folder::new();
    let path = folder.file("policy", D);
    let stream = events(&mut Random::new(11), D, 10 * MILLION);
    let record = folder.file("record", &stream);
    let library = shortest(|| drop(released(D, &stream)));
    let desk = shortest(|| {
        let mut command = program();
        command.args(["run", "--bytes", &path, &record]);
        assert!(command
            .stdout(Stdio::null())
            .status()
            .expect("it ends")
            .success());
    });
    println!("ten million ticks: {library:?} in the library, {desk:?} by the program");
    assert!(
        desk < 2 * library,
        "{library:?} in the library, {desk:?} by the program"
    );
}
