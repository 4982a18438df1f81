//! `wave`: what is released, for wave viewers.

use std::fmt::Write;

use groovepawn::{Event, MOST_EVENTS_OF_A_WAVE};

use crate::commands::run::form;
use crate::events::Events;
use crate::fault::Fault;
use crate::help;
use crate::out::Out;
use crate::policies::Named;
use crate::runner::Runner;
use crate::signals::{Signal, Signals};
use crate::words::Words;

pub fn obey(words: &Words) -> Result<(), Fault> {
    let [policy, events] = words.exactly()?;
    let path = words.out_needed()?;
    let reading = words.reading()?;
    let named = Named::read(policy)?;
    let (marks, _) = named.prepare(reading)?;
    let events = Events::open(events, form(words), &named)?;
    let events_name = events.name.clone();
    let mut runner = Runner::new(&named.policy, &marks, events);
    let mut out = Out::of(Some(path))?;
    if words.has(&help::ALL) {
        put_all(&mut runner, &Signals::of(&named), &mut out)?;
    } else {
        let released = released(&mut runner)?;
        let wave = named.policy.wave(&released);
        let wave = wave.map_err(|refusal| Fault::refused(events_name, refusal))?;
        out.put(&wave)?;
    }
    out.finish()
}

/// The stream that is released, no further than the library has to see it to refuse
/// one that is too long.
fn released(runner: &mut Runner) -> Result<Vec<u8>, Fault> {
    let mut released = Vec::new();
    while let Some(piece) = runner.piece()? {
        released.extend_from_slice(piece.released);
        if released.len() > MOST_EVENTS_OF_A_WAVE {
            break;
        }
    }
    Ok(released)
}

/// A wire: its name, the character that stands for it, and what it shows of a tick.
struct Wire {
    name: String,
    mark: char,
    shows: fn(u8, u8) -> u8,
    bit: u8,
    last: Option<bool>,
}

impl Wire {
    fn value(&self, read: u8, released: u8) -> bool {
        (self.shows)(read, released) & self.bit != 0
    }
}

/// The bits of the two wires that show where a half was edited.
const INPUT_EDITED: u8 = 1;
const OUTPUT_EDITED: u8 = 2;

fn edits(read: u8, released: u8) -> u8 {
    let changed = Event(read ^ released);
    let bit = |edited: bool, bit: u8| if edited { bit } else { 0 };
    bit(changed.input() != 0, INPUT_EDITED) | bit(changed.output() != 0, OUTPUT_EDITED)
}

/// Each signal as released, by its name or its tag, each as read, and the edits.
fn wires(signals: &Signals) -> Vec<Wire> {
    let mut wires = Vec::new();
    let mut wire = |name: String, mark, shows, bit| {
        wires.push(Wire {
            name,
            mark,
            shows,
            bit,
            last: None,
        })
    };
    for Signal { bit, tag, name } in signals.all() {
        wire(name.clone(), *tag, |_, released| released, *bit);
        wire(
            format!("{name}_read"),
            tag.to_ascii_lowercase(),
            |read, _| read,
            *bit,
        );
    }
    wire("input_edited".to_string(), '<', edits, INPUT_EDITED);
    wire("output_edited".to_string(), '>', edits, OUTPUT_EDITED);
    wires
}

fn put_all(runner: &mut Runner, signals: &Signals, out: &mut Out) -> Result<(), Fault> {
    let mut wires = wires(signals);
    let mut text = String::from("$timescale 100 ms $end\n");
    for wire in &wires {
        let _ = writeln!(text, "$var wire 1 {} {} $end", wire.mark, wire.name);
    }
    text.push_str("$enddefinitions $end\n");
    let mut ticks = 0;
    while let Some(piece) = runner.piece()? {
        for (tick, read, released) in piece.ticks() {
            put_changes(&mut wires, tick - 1, read, released, &mut text);
            ticks = tick;
        }
        out.put(text.as_bytes())?;
        text.clear();
    }
    let _ = writeln!(text, "#{ticks}");
    out.put(text.as_bytes())
}

/// The time and what changes then, if anything does.
fn put_changes(wires: &mut [Wire], time: u64, read: u8, released: u8, text: &mut String) {
    let mut said = false;
    for wire in wires {
        let value = wire.value(read, released);
        if wire.last != Some(value) {
            if !said {
                let _ = writeln!(text, "#{time}");
                said = true;
            }
            let _ = writeln!(text, "{}{}", u8::from(value), wire.mark);
            wire.last = Some(value);
        }
    }
}
