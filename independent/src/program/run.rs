//! A run of a program.

use crate::random::Random;
use std::io::{self, Write as _};
use std::process::{Command, Stdio};
use std::thread;
use std::time::Duration;

/// What the program prints when the input reaches it in pieces.
pub fn run(words: &[&str], input: &[u8], random: &mut Random) -> io::Result<String> {
    let [program, arguments @ ..] = words else {
        return Err(io::Error::other("no program is named"));
    };
    let mut child = Command::new(program)
        .args(arguments)
        .stdin(Stdio::piped())
        .stdout(Stdio::piped())
        .spawn()?;
    let mut pipe = child.stdin.take().expect("the input is a pipe");
    let longest = random.pick(&[1, 7, 400, 5_000, 30_000]);
    // A pause between pieces makes the program read less than it asked for.
    let pauses = random.percent(10);
    let mut rest = input;
    let mut pieces = Vec::new();
    while !rest.is_empty() {
        let (piece, after) = rest.split_at(random.between(1, longest.min(rest.len())));
        pieces.push(piece.to_vec());
        rest = after;
    }
    let writer = thread::spawn(move || {
        for (place, piece) in pieces.iter().enumerate() {
            // A program that has seen enough may have closed its end.
            if pipe.write_all(piece).is_err() {
                return;
            }
            if pauses && place < 20 {
                thread::sleep(Duration::from_millis(1));
            }
        }
    });
    let output = child.wait_with_output()?;
    writer.join().expect("the writer ends");
    if !output.status.success() {
        return Err(io::Error::other(format!("{}", output.status)));
    }
    String::from_utf8(output.stdout).map_err(io::Error::other)
}
