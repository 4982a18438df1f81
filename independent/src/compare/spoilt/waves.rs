//! Waves, spoilt.

use super::{Fault, Spoilt};
use crate::engine::{found_in, refusal_in, Engine, Model};
use crate::parse;
use crate::policy::Policy;
use crate::waves;

pub fn wave_write(spoilt: &Spoilt, file: &[u8], events: &[u8], text: &mut [u8]) -> u64 {
    let Ok(policy) = parse::check(file) else {
        return Model.wave_write(file, events, text);
    };
    if spoilt.has(Fault::WaveOneEventLess) && events.len() == waves::MOST_EVENTS {
        return 29;
    }
    let needed = waves::text_of(&policy, events).len();
    if spoilt.has(Fault::WaveRoomBeforeEvents) && text.len() < needed {
        return 14;
    }
    let answer = Model.wave_write(file, events, text);
    if spoilt.has(Fault::WaveTextOnRefusal) && answer == 14 {
        text.fill(b'$');
    }
    match refusal_in(answer) {
        0 => other_text(spoilt, &policy, events, text, answer),
        _ => answer,
    }
}

/// Another text where a spoilt writer makes one; not all of it, where
/// there is no room.
fn other_text(
    spoilt: &Spoilt,
    policy: &Policy,
    events: &[u8],
    text: &mut [u8],
    answer: u64,
) -> u64 {
    let right = waves::text_of(policy, events);
    let other = match spoilt.fault {
        Fault::WaveOutputsFirst => {
            let mut exchanged = policy.clone();
            std::mem::swap(&mut exchanged.inputs, &mut exchanged.outputs);
            let halves = |event: &u8| event.rotate_left(4);
            let events: Vec<u8> = events.iter().map(halves).collect();
            waves::text_of(&exchanged, &events)
        }
        Fault::WaveTimesFromOne => right.replace("#0\n", "#1\n"),
        Fault::WaveTimesWithoutChange => match events {
            [first, .., last] if [*first, *last].repeat(events.len() / 2) == events => {
                right.replace("#2\n", "#1\n#2\n")
            }
            _ => right,
        },
        Fault::WaveWithoutClosing if !events.is_empty() => {
            right.replace(&format!("#{}\n", events.len()), "")
        }
        Fault::WaveEmptyClosedTwice if events.is_empty() => right + "#0\n",
        _ => return answer,
    };
    let length = other.len().min(text.len());
    text[..length].copy_from_slice(&other.as_bytes()[..length]);
    (length as u64) << 8
}

pub fn wave_read(spoilt: &Spoilt, file: &[u8], text: &[u8], events: &mut [u8]) -> u64 {
    let answer = Model.wave_read(file, &seen_text(spoilt, text), events);
    if spoilt.has(Fault::WaveEventsOnRefusal) && answer == 21 && !events.is_empty() {
        events[0] ^= 1;
    }
    let count = found_in(answer);
    let more = refusal_in(answer) == 0 && count < events.len();
    if spoilt.has(Fault::WavePastTheEvents) && more {
        events[count] = 0;
    }
    answer
}

/// The text as a spoilt reader takes it.
fn seen_text(spoilt: &Spoilt, text: &[u8]) -> Vec<u8> {
    let Ok(letters) = std::str::from_utf8(text) else {
        return text.to_vec();
    };
    let mended = match spoilt.fault {
        Fault::WaveReturnsTaken => letters.replace('\r', ""),
        Fault::WaveZerosTaken => letters.replace("#0", "#").replace("#\n", "#0\n"),
        Fault::WaveEndTaken => letters.trim_end().to_string() + "\n",
        Fault::WaveAgainTaken => {
            let mut lines: Vec<&str> = letters.split('\n').collect();
            lines.dedup();
            lines.join("\n")
        }
        Fault::WaveTimeWrapped => wrapped(letters),
        _ => letters.to_string(),
    };
    mended.into_bytes()
}

/// The text with the times that sixteen bits hold of its times.
fn wrapped(text: &str) -> String {
    let line = |line: &str| match line.strip_prefix('#').map(str::parse) {
        Some(Ok(time @ 65_536..)) => format!("#{}", time & 0xFFFF_usize),
        _ => line.to_string(),
    };
    let lines: Vec<String> = text.split('\n').map(line).collect();
    lines.join("\n")
}
