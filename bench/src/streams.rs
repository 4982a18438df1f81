//! The runs that are measured: a policy under a reading, and a stream that needs
//! no edits, many, one at every tick, or two.

use crate::engine::START;
use crate::file::Policy;
use crate::policies;
use crate::random::Random;
use crate::ready::Ready;
use crate::work::RunWork;

#[derive(Clone, Copy, Debug, PartialEq, Eq)]
pub enum Edits {
    None,
    Many,
    /// The event 0, 0 each time, of which both halves are edited.
    Both,
    /// At each tick an event that is edited there.
    Every,
}

pub struct Stream {
    pub name: &'static str,
    pub reading: u8,
    pub policy: fn() -> Policy,
    pub edits: Edits,
}

/// Under reading 1, then the same under reading 2.
pub const STREAMS: [Stream; 19] = [
    stream("smallest, no edits", 1, policies::smallest, Edits::None),
    stream(
        "smallest, every tick edited",
        1,
        policies::smallest,
        Edits::Every,
    ),
    stream("short, no edits", 1, policies::short, Edits::None),
    stream("short, many edits", 1, policies::short, Edits::Many),
    stream("short, every tick edited", 1, policies::short, Edits::Every),
    stream("long, no edits", 1, policies::long, Edits::None),
    stream("long, many edits", 1, policies::long, Edits::Many),
    stream("crowded, no edits", 1, policies::crowded, Edits::None),
    stream("crowded, many edits", 1, policies::crowded, Edits::Many),
    stream("barred, both edited", 1, policies::barred, Edits::Both),
    stream("nested, both edited", 1, policies::nested, Edits::Both),
    stream(
        "short, no edits, reading 2",
        2,
        policies::short,
        Edits::None,
    ),
    stream(
        "short, many edits, reading 2",
        2,
        policies::short,
        Edits::Many,
    ),
    stream("long, no edits, reading 2", 2, policies::long, Edits::None),
    stream(
        "long, many edits, reading 2",
        2,
        policies::long,
        Edits::Many,
    ),
    stream(
        "crowded, no edits, reading 2",
        2,
        policies::crowded,
        Edits::None,
    ),
    stream(
        "crowded, many edits, reading 2",
        2,
        policies::crowded,
        Edits::Many,
    ),
    stream(
        "barred, both edited, reading 2",
        2,
        policies::barred,
        Edits::Both,
    ),
    stream(
        "nested, both edited, reading 2",
        2,
        policies::nested,
        Edits::Both,
    ),
];

const fn stream(name: &'static str, reading: u8, policy: fn() -> Policy, edits: Edits) -> Stream {
    Stream {
        name,
        reading,
        policy,
        edits,
    }
}

impl Stream {
    pub fn named(name: &str) -> Option<&'static Stream> {
        STREAMS.iter().find(|stream| stream.name == name)
    }

    pub fn run(&self, ticks: usize) -> RunWork {
        let (ready, events) = self.ready(ticks);
        RunWork::new(ready, events)
    }

    /// The policy with its marks, and so many events. A released stream comes
    /// back unchanged, so it is one that needs no edits.
    pub fn ready(&self, ticks: usize) -> (Ready, Vec<u8>) {
        let policy = (self.policy)();
        let ready = Ready::new(self.reading, &policy);
        let events = match self.edits {
            Edits::None => ready.corrected(&any_events(&policy, ticks)),
            Edits::Many => any_events(&policy, ticks),
            Edits::Both => vec![0; ticks],
            Edits::Every => edited_events(&policy, &ready, ticks),
        };
        (ready, events)
    }
}

/// A stream over eight signals for the wave writer and its reader.
pub struct Wave {
    pub name: &'static str,
    /// The signals that change at once, every so many events.
    changing: u8,
    every: usize,
}

pub const WAVES: [Wave; 3] = [
    wave("all change", 0xFF, 1),
    wave("one changes", 0x10, 1),
    wave("one changes in sixteen", 0x10, 16),
];

const fn wave(name: &'static str, changing: u8, every: usize) -> Wave {
    Wave {
        name,
        changing,
        every,
    }
}

impl Wave {
    pub fn named(name: &str) -> Option<&'static Wave> {
        WAVES.iter().find(|wave| wave.name == name)
    }

    pub fn events(&self, count: usize) -> Vec<u8> {
        let on = |place| place / self.every % 2 == 1;
        let event = |place| if on(place) { self.changing } else { 0 };
        (0..count).map(event).collect()
    }
}

/// At each tick the first of some random events that is edited there. The policy
/// has such an event in every state.
fn edited_events(policy: &Policy, ready: &Ready, count: usize) -> Vec<u8> {
    const TRIES: usize = 256;
    let mut random = Random::new(4);
    let mask = policy.event_mask();
    let mut state = START;
    let mut tick = |_| {
        let (mut event, mut next) = (0, state);
        for _ in 0..TRIES {
            event = random.byte() & mask;
            next = state;
            if ready.released(&mut next, event) != event {
                break;
            }
        }
        state = next;
        event
    };
    (0..count).map(&mut tick).collect()
}

fn any_events(policy: &Policy, count: usize) -> Vec<u8> {
    let mut random = Random::new(3);
    let mask = policy.event_mask();
    (0..count).map(|_| random.byte() & mask).collect()
}

#[cfg(test)]
mod tests {
    use super::*;
    use crate::engine::Plain;
    use crate::work::Work;
    use std::collections::BTreeSet;

    /// The share of the events that a run releases otherwise.
    fn edited(stream: &Stream, ticks: usize) -> f64 {
        let (_, events) = stream.ready(ticks);
        let mut run = stream.run(ticks);
        run.pass(&Plain);
        let released = run.outcome().bytes;
        let other = events.iter().zip(released).filter(|(a, b)| *a != b);
        other.count() as f64 / ticks as f64
    }

    #[test]
    fn streams_need_the_edits_they_are_named_for() {
        for stream in &STREAMS {
            let share = edited(stream, 4_096);
            match stream.edits {
                Edits::None => assert_eq!(share, 0.0, "{}", stream.name),
                Edits::Many => assert!(share > 0.2, "{}: {share}", stream.name),
                Edits::Both => assert_eq!(share, 1.0, "{}", stream.name),
                Edits::Every => assert_eq!(share, 1.0, "{}", stream.name),
            }
        }
    }

    #[test]
    fn both_halves_are_edited() {
        for stream in STREAMS.iter().filter(|stream| stream.edits == Edits::Both) {
            let (ready, events) = stream.ready(1);
            let released = ready.corrected(&events)[0];
            assert!(released & 15 != 0 && released >> 4 != 0, "{}", stream.name);
        }
    }

    #[test]
    fn the_long_run_visits_most_locations() {
        let stream = Stream::named("long, many edits").expect("there is one");
        let (ready, events) = stream.ready(4_096);
        let states = ready.states_along(&ready.corrected(&events));
        let locations: BTreeSet<u16> = states.iter().map(|state| state[0]).collect();
        assert!(locations.len() > 50, "{}", locations.len());
    }
}
