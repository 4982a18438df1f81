//! Streams as texts for wave viewers, and back.

use super::policy::Policy;
use super::refusal::Refusal;

const MOST_EVENTS: usize = 16_384;

const SCALE: &[u8] = b"$timescale 100 ms $end\n";
const DEFINED: &[u8] = b"$enddefinitions $end\n";

/// Writes the text at the beginning of `text` and returns its length. Once to
/// count, once to write.
pub fn wave_write(file: &[u8], events: &[u8], text: &mut [u8]) -> Result<usize, Refusal> {
    let policy = Policy::check(file)?;
    if events.len() > MOST_EVENTS {
        return Err(Refusal::TooManyEvents);
    }
    if events.iter().any(|&event| !fits(&policy, event)) {
        return Err(Refusal::BeyondSignals);
    }
    let signals = Signals::of(&policy);
    let length = signals.text_length(events);
    let here = text.get_mut(..length).ok_or(Refusal::SliceTooShort)?;
    let mut writer = Writer { text: here, at: 0 };
    signals.put_header(&mut writer);
    signals.put_stream(&mut writer, events);
    Ok(length)
}

/// Writes the events at the beginning of `events` and returns how many they
/// are. Once to look at all of the text, once to write.
pub fn wave_read(file: &[u8], text: &[u8], events: &mut [u8]) -> Result<usize, Refusal> {
    let policy = Policy::check(file)?;
    let signals = Signals::of(&policy);
    let body = signals.after_header(text).ok_or(Refusal::NotThisForm)?;
    let count = signals
        .read(body, |_, _, _| {})
        .ok_or(Refusal::NotThisForm)?;
    let here = events.get_mut(..count).ok_or(Refusal::SliceTooShort)?;
    signals.read(body, |from, to, event| here[from..to].fill(event));
    Ok(count)
}

fn fits(policy: &Policy, event: u8) -> bool {
    event % 16 < policy.input_values() && event / 16 < policy.output_values()
}

/// The tag of each signal and its bit in an event, inputs first.
struct Signals {
    count: usize,
    pairs: [(u8, u8); 8],
}

impl Signals {
    fn of(policy: &Policy) -> Signals {
        let mut signals = Signals {
            count: 0,
            pairs: [(0, 0); 8],
        };
        for (tags, first) in [(policy.inputs, 0), (policy.outputs, 4)] {
            for (place, &tag) in tags.iter().enumerate() {
                signals.pairs[signals.count] = (tag, 1 << (first + place));
                signals.count += 1;
            }
        }
        signals
    }

    fn iter(&self) -> impl Iterator<Item = (u8, u8)> + '_ {
        self.pairs[..self.count].iter().copied()
    }

    fn text_length(&self, events: &[u8]) -> usize {
        let header = SCALE.len() + self.count * var(b'A').len() + DEFINED.len();
        let Some(&first) = events.first() else {
            return header + time_length(0);
        };
        let mut length = header + time_length(0) + 3 * self.count + time_length(events.len());
        let mut before = first;
        for (time, &event) in events.iter().enumerate() {
            if event != before {
                length += time_length(time) + 3 * (event ^ before).count_ones() as usize;
                before = event;
            }
        }
        length
    }

    fn put_header(&self, writer: &mut Writer) {
        writer.put(SCALE);
        for (tag, _) in self.iter() {
            writer.put(&var(tag));
        }
        writer.put(DEFINED);
    }

    fn put_stream(&self, writer: &mut Writer, events: &[u8]) {
        writer.put_time(0);
        let Some(&first) = events.first() else {
            return;
        };
        self.put_changes(writer, !first, first);
        let mut before = first;
        for (time, &event) in events.iter().enumerate() {
            if event != before {
                writer.put_time(time);
                self.put_changes(writer, before, event);
                before = event;
            }
        }
        writer.put_time(events.len());
    }

    fn put_changes(&self, writer: &mut Writer, before: u8, event: u8) {
        for (tag, bit) in self.iter() {
            if (before ^ event) & bit != 0 {
                writer.put(&[b'0' + u8::from(event & bit != 0), tag, b'\n']);
            }
        }
    }

    /// The text after the header.
    fn after_header<'a>(&self, text: &'a [u8]) -> Option<&'a [u8]> {
        let mut rest = text.strip_prefix(SCALE)?;
        for (tag, _) in self.iter() {
            rest = rest.strip_prefix(&var(tag))?;
        }
        rest.strip_prefix(DEFINED)
    }

    /// How many events the text has; each stretch of equal ones is handed on
    /// as it is found.
    fn read(&self, body: &[u8], mut stretch: impl FnMut(usize, usize, u8)) -> Option<usize> {
        let (mut time, mut rest) = read_time(body)?;
        if time != 0 {
            return None;
        }
        if rest.is_empty() {
            return Some(0);
        }
        let mut event;
        (event, rest) = self.read_changes(rest, None)?;
        loop {
            let (next, after) = read_time(rest)?;
            if next <= time {
                return None;
            }
            stretch(time, next, event);
            time = next;
            if after.is_empty() {
                return Some(time);
            }
            let before = event;
            (event, rest) = self.read_changes(after, Some(before))?;
            if event == before {
                return None;
            }
        }
    }

    /// The values at a time: all of them where none stand yet, else changes
    /// only.
    fn read_changes<'a>(&self, text: &'a [u8], before: Option<u8>) -> Option<(u8, &'a [u8])> {
        let mut event = before.unwrap_or(0);
        let mut rest = text;
        for (tag, bit) in self.iter() {
            match rest {
                [value @ (b'0' | b'1'), name, b'\n', after @ ..] if *name == tag => {
                    let with = if *value == b'1' {
                        event | bit
                    } else {
                        event & !bit
                    };
                    if before.is_some() && with == event {
                        return None;
                    }
                    event = with;
                    rest = after;
                }
                _ if before.is_none() => return None,
                _ => {}
            }
        }
        Some((event, rest))
    }
}

fn var(tag: u8) -> [u8; 21] {
    let mut line = *b"$var wire 1 A A $end\n";
    line[12] = tag;
    line[14] = tag;
    line
}

/// A time line, and what stands after it.
fn read_time(text: &[u8]) -> Option<(usize, &[u8])> {
    let digits = text.strip_prefix(b"#")?;
    let mut time = 0;
    for (place, &byte) in digits.iter().enumerate() {
        match byte {
            b'0'..=b'9' if place == 0 || time > 0 => time = 10 * time + usize::from(byte - b'0'),
            b'\n' if place > 0 => return Some((time, &digits[place + 1..])),
            _ => return None,
        }
        if time > MOST_EVENTS {
            return None;
        }
    }
    None
}

fn digits(time: usize) -> usize {
    match time {
        0..=9 => 1,
        10..=99 => 2,
        100..=999 => 3,
        1_000..=9_999 => 4,
        _ => 5,
    }
}

fn time_length(time: usize) -> usize {
    2 + digits(time)
}

/// A text that is long enough for what is put.
struct Writer<'a> {
    text: &'a mut [u8],
    at: usize,
}

impl Writer<'_> {
    fn put(&mut self, bytes: &[u8]) {
        self.text[self.at..self.at + bytes.len()].copy_from_slice(bytes);
        self.at += bytes.len();
    }

    fn put_time(&mut self, time: usize) {
        let length = time_length(time);
        let line = &mut self.text[self.at..self.at + length];
        line[0] = b'#';
        line[length - 1] = b'\n';
        let mut rest = time;
        for digit in line[1..length - 1].iter_mut().rev() {
            *digit = b'0' + (rest % 10) as u8;
            rest /= 10;
        }
        self.at += length;
    }
}
