//! Released streams as texts for wave viewers (Value Change Dump), and back.
//! The writer goes through the stream once for each signal and sorts what it
//! finds by time; the reader takes the text apart into lines.

use crate::parse;
use crate::policy::Policy;
use crate::refusal::Refusal;
use std::collections::BTreeMap;

pub const MOST_EVENTS: usize = 16_384;

/// Writes the text of the stream at the beginning of `text` and returns its
/// length.
pub fn write(file: &[u8], events: &[u8], text: &mut [u8]) -> Result<usize, Refusal> {
    let policy = parse::check(file)?;
    if events.len() > MOST_EVENTS {
        return Err(Refusal::TooManyEvents);
    }
    let mask = policy.event_mask();
    if events.iter().any(|event| event & !mask != 0) {
        return Err(Refusal::BeyondSignals);
    }
    put(text_of(&policy, events).as_bytes(), text)
}

/// Writes the stream of the text at the beginning of `events` and returns how
/// many events it has.
pub fn read(file: &[u8], text: &[u8], events: &mut [u8]) -> Result<usize, Refusal> {
    let policy = parse::check(file)?;
    let stream = stream_of(&policy, text).ok_or(Refusal::NotThisForm)?;
    put(&stream, events)
}

fn put(bytes: &[u8], slice: &mut [u8]) -> Result<usize, Refusal> {
    let here = slice.get_mut(..bytes.len());
    here.ok_or(Refusal::SliceTooShort)?.copy_from_slice(bytes);
    Ok(bytes.len())
}

/// A signal of the policy: its tag, and where it stands in an event.
#[derive(Clone, Copy)]
struct Signal {
    tag: char,
    bit: u8,
}

impl Signal {
    fn value_in(self, event: u8) -> u8 {
        event >> self.bit & 1
    }

    fn line(self, value: u8) -> String {
        format!("{value}{}", self.tag)
    }
}

/// Inputs first, in file order.
fn signals(policy: &Policy) -> Vec<Signal> {
    let section = |tags: &[u8], first: u8| -> Vec<Signal> {
        let bits = first..;
        let tags = tags.iter().map(|&tag| char::from(tag));
        tags.zip(bits)
            .map(|(tag, bit)| Signal { tag, bit })
            .collect()
    };
    [section(&policy.inputs, 0), section(&policy.outputs, 4)].concat()
}

fn header(signals: &[Signal]) -> Vec<String> {
    let var = |signal: &Signal| format!("$var wire 1 {0} {0} $end", signal.tag);
    let mut lines = vec!["$timescale 100 ms $end".to_string()];
    lines.extend(signals.iter().map(var));
    lines.push("$enddefinitions $end".to_string());
    lines
}

/// The text that the writer makes of a stream.
pub fn text_of(policy: &Policy, events: &[u8]) -> String {
    let signals = signals(policy);
    let mut times: BTreeMap<usize, Vec<String>> = BTreeMap::from([(0, vec![])]);
    for signal in &signals {
        let mut time = 0;
        for same in events.chunk_by(|a, b| signal.value_in(*a) == signal.value_in(*b)) {
            let line = signal.line(signal.value_in(same[0]));
            times.entry(time).or_default().push(line);
            time += same.len();
        }
    }
    // The closing time; of an empty stream it is the time 0 that stands.
    times.entry(events.len()).or_default();
    let mut lines = header(&signals);
    for (time, values) in times {
        lines.push(format!("#{time}"));
        lines.extend(values);
    }
    lines.iter().map(|line| format!("{line}\n")).collect()
}

/// A time line and the lines after it.
struct Moment {
    time: usize,
    /// The place of the signal among the signals, and its value.
    values: Vec<(usize, u8)>,
}

/// The stream of which the writer makes this text, if there is one.
fn stream_of(policy: &Policy, text: &[u8]) -> Option<Vec<u8>> {
    let signals = signals(policy);
    let text = std::str::from_utf8(text).ok()?;
    let mut lines = text.strip_suffix('\n')?.split('\n');
    for line in header(&signals) {
        if lines.next()? != line {
            return None;
        }
    }
    let moments = moments(lines, &signals)?;
    in_order(&moments, &signals).then(|| events_of(&moments, &signals))
}

fn moments<'a>(lines: impl Iterator<Item = &'a str>, signals: &[Signal]) -> Option<Vec<Moment>> {
    let mut moments: Vec<Moment> = Vec::new();
    for line in lines {
        if let Some(number) = line.strip_prefix('#') {
            let time = time_of(number)?;
            let values = vec![];
            moments.push(Moment { time, values });
        } else {
            let value = value_of(line, signals)?;
            moments.last_mut()?.values.push(value);
        }
    }
    Some(moments)
}

/// A decimal number without leading zeros or anything else, at most 16,384.
fn time_of(number: &str) -> Option<usize> {
    let time: usize = number.parse().ok()?;
    (time <= MOST_EVENTS && time.to_string() == number).then_some(time)
}

fn value_of(line: &str, signals: &[Signal]) -> Option<(usize, u8)> {
    let named = |value| signals.iter().position(|signal| signal.line(value) == line);
    let values = [0, 1].into_iter();
    values
        .filter_map(|value| Some((named(value)?, value)))
        .next()
}

fn in_order(moments: &[Moment], signals: &[Signal]) -> bool {
    let [first, later @ ..] = moments else {
        return false;
    };
    let Some((closing, between)) = later.split_last() else {
        // Of an empty stream.
        return first.time == 0 && first.values.is_empty();
    };
    let all = first
        .values
        .iter()
        .map(|value| value.0)
        .eq(0..signals.len());
    let mut standing: Vec<u8> = first.values.iter().map(|value| value.1).collect();
    let mut changes_only = |moment: &Moment| {
        let rising = moment.values.is_sorted_by(|a, b| a.0 < b.0);
        let mut changes = moment.values.iter();
        let each = changes.all(|&(place, value)| {
            let before = std::mem::replace(&mut standing[place], value);
            before != value
        });
        rising && each && !moment.values.is_empty()
    };
    first.time == 0
        && all
        && moments.is_sorted_by(|a, b| a.time < b.time)
        && between.iter().all(&mut changes_only)
        && closing.values.is_empty()
}

/// Each moment's values stand until the next; the last is the closing time.
fn events_of(moments: &[Moment], signals: &[Signal]) -> Vec<u8> {
    let mut events = Vec::new();
    let mut event = 0;
    for pair in moments.windows(2) {
        for &(place, value) in &pair[0].values {
            let bit = signals[place].bit;
            event = event & !(1 << bit) | value << bit;
        }
        events.resize(pair[1].time, event);
    }
    events
}

#[cfg(test)]
mod tests {
    use super::*;
    use crate::policies::{self, Size};
    use crate::random::Random;
    use crate::spoil;
    use crate::subject::some_events;

    /// The reader by 02's own words, "takes back exactly what the writer
    /// makes": whatever stream a text may stand for, the writer must make that
    /// text of it.
    fn by_writing_again(policy: &Policy, text: &[u8]) -> Option<Vec<u8>> {
        let signals = signals(policy);
        let text = std::str::from_utf8(text).ok()?;
        let (mut events, mut event) = (vec![], 0);
        for line in text.lines() {
            if let Some(time) = line.strip_prefix('#') {
                let time: usize = time.parse().ok()?;
                events.resize(time.min(MOST_EVENTS), event);
            }
            for signal in &signals {
                for value in [0, 1] {
                    if line == signal.line(value) {
                        event = event & !(1 << signal.bit) | value << signal.bit;
                    }
                }
            }
        }
        (text_of(policy, &events) == text).then_some(events)
    }

    fn some_stream(random: &mut Random) -> (Policy, Vec<u8>) {
        let policy = policies::of_size(random, Size::Tiny);
        let mask = policy.event_mask();
        let events = some_events(random, &policy);
        let events = events.iter().map(|event| event & mask).take(40).collect();
        (policy, events)
    }

    #[test]
    fn every_text_reads_back_as_its_stream() {
        let mut random = Random::new(131);
        for _ in 0..4_000 {
            let (policy, events) = some_stream(&mut random);
            let text = text_of(&policy, &events);
            assert_eq!(stream_of(&policy, text.as_bytes()), Some(events));
        }
    }

    #[test]
    fn a_spoilt_text_is_taken_only_if_the_writer_makes_it() {
        let mut random = Random::new(132);
        let (mut taken, mut refused) = (0, 0);
        for _ in 0..60_000 {
            let (policy, events) = some_stream(&mut random);
            let text = text_of(&policy, &events);
            let spoilt = spoil::spoilt(&mut random, text.as_bytes());
            let found = stream_of(&policy, &spoilt);
            assert_eq!(found, by_writing_again(&policy, &spoilt));
            match found {
                Some(_) => taken += 1,
                None => refused += 1,
            }
        }
        // Some texts become the text of another stream.
        assert!(taken > 1_000 && refused > 30_000, "{taken}, {refused}");
    }

    #[test]
    fn a_stream_as_long_as_can_be_reads_back() {
        let policy = policies::unit(b"ABCD", b"EFGH");
        let events: Vec<u8> = [0, 255].into_iter().cycle().take(MOST_EVENTS).collect();
        let text = text_of(&policy, &events);
        assert_eq!(text.len(), LONGEST_TEXT);
        assert_eq!(stream_of(&policy, text.as_bytes()), Some(events));
    }

    /// The header: 23, eight times 21, and 21 bytes. The times 0 to 16,384:
    /// each its digits and two more bytes. The values: three bytes each.
    const LONGEST_TEXT: usize = 23
        + 8 * 21
        + 21
        + (10 + 2 * 90 + 3 * 900 + 4 * 9_000 + 5 * 6_385 + 2 * 16_385)
        + 16_384 * 8 * 3;

    #[test]
    fn the_longest_text_is_as_the_documents_say() {
        assert_eq!(LONGEST_TEXT, 497_013);
    }
}
