//! `run`: what is released.

use std::fmt::Write;

use groovepawn::{Event, Reading, Summary};

use crate::events::{Events, Form};
use crate::fault::Fault;
use crate::help;
use crate::out::Out;
use crate::policies::Named;
use crate::runner::{Piece, Runner};
use crate::signals::Signals;
use crate::words::Words;

pub fn obey(words: &Words) -> Result<(), Fault> {
    let [policy, events] = words.exactly()?;
    let plain = words.has(&help::PLAIN);
    let form = form(words);
    let mut out = Out::standard();
    let ran = Named::read(policy).and_then(|named| {
        let (marks, summary) = named.prepare(words.reading()?)?;
        let events = Events::open(events, form, &named)?;
        let mut runner = Runner::new(&named.policy, &marks, events);
        match (plain, form) {
            (true, _) => run_plain(&mut runner, summary, &mut out),
            (false, Form::Bytes) => run_bytes(&mut runner, &mut out),
            (false, Form::Text) => {
                let signals = Signals::of(&named);
                run_lines(&mut runner, &signals, words.reading()?, summary, &mut out)
            }
        }
    });
    if let (true, Err(Fault::Refused { refusal, .. })) = (plain, &ran) {
        out.line(&format!("refused {}", refusal.number()))?;
    }
    out.finish()?;
    ran
}

/// The form of the events that an option names.
pub fn form(words: &Words) -> Form {
    if words.has(&help::BYTES) {
        Form::Bytes
    } else {
        Form::Text
    }
}

fn run_bytes(runner: &mut Runner, out: &mut Out) -> Result<(), Fault> {
    while let Some(piece) = runner.piece()? {
        out.put(piece.released)?;
    }
    Ok(())
}

/// What `enforce` prints. It looks at all events before it prints, and takes fewer
/// than a piece has: so a fault in the first piece leaves the refusal alone.
fn run_plain(runner: &mut Runner, summary: Summary, out: &mut Out) -> Result<(), Fault> {
    let mut text = String::new();
    let (verdict, states, live) = (summary.verdict(), summary.states, summary.live);
    let _ = writeln!(text, "verdict {verdict} states {states} live {live}");
    while let Some(piece) = runner.piece()? {
        put_plain(&piece, &mut text);
        if piece.first == 1 {
            if let Some(fault) = runner.fault() {
                return Err(fault);
            }
        }
        out.put(text.as_bytes())?;
        text.clear();
    }
    out.put(text.as_bytes())
}

fn put_plain(piece: &Piece, text: &mut String) {
    for (tick, read, released) in piece.ticks() {
        let (read, released) = (Event(read), Event(released));
        let (x, y) = (read.input(), read.output());
        let (x_released, y_released) = (released.input(), released.output());
        let input = letter(x == x_released);
        let output = letter(y == y_released);
        let _ = writeln!(
            text,
            "{tick} {x} {y} {x_released} {y_released} {input}{output}"
        );
    }
}

/// Whether a half was forwarded or edited.
fn letter(forwarded: bool) -> char {
    if forwarded {
        'F'
    } else {
        'E'
    }
}

/// Lines that are a text of events themselves.
fn run_lines(
    runner: &mut Runner,
    signals: &Signals,
    reading: Reading,
    summary: Summary,
    out: &mut Out,
) -> Result<(), Fault> {
    let width = signals.width();
    let (verdict, states, live) = (summary.verdict(), summary.states, summary.live);
    out.line(&format!(
        "# reading {}, verdict {verdict}, {states} states, {live} live",
        reading.number()
    ))?;
    while let Some(piece) = runner.piece()? {
        let mut text = String::new();
        for (tick, read, released) in piece.ticks() {
            let from = text.len();
            signals.put(released, &mut text);
            while text.len() < from + width {
                text.push(' ');
            }
            let _ = write!(text, "  # {tick}");
            if let Some(halves) = edited(read, released) {
                text.push_str(": read ");
                signals.put(read, &mut text);
                let _ = write!(text, ", {halves} edited");
            }
            text.push('\n');
        }
        out.put(text.as_bytes())?;
    }
    Ok(())
}

/// Which halves of a tick were edited, if any was.
pub fn edited(read: u8, released: u8) -> Option<&'static str> {
    let changed = Event(read ^ released);
    match (changed.input() != 0, changed.output() != 0) {
        (false, false) => None,
        (true, false) => Some("input"),
        (false, true) => Some("output"),
        (true, true) => Some("input and output"),
    }
}
