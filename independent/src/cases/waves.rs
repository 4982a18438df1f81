//! Streams to be written as waves and read back.

use crate::call::Call;
use crate::policies::{self, Size};
use crate::policy::Policy;
use crate::random::Random;
use crate::spoil;
use crate::subject::{filler, lent_length};
use crate::waves::{self, MOST_EVENTS};

pub fn around_wave(random: &mut Random) -> Vec<Call> {
    let size = random.pick(&[Size::Tiny, Size::Small]);
    let policy = policies::of_size(random, size);
    let wave = Wave::new(random, policy);
    let mut made = vec![
        wave.write_call(random),
        wave.write_call(random),
        wave.read_call(random),
    ];
    let spoilt = match wave.text.len() {
        0..=20_000 => 6,
        _ => 1,
    };
    made.extend((0..spoilt).map(|_| wave.spoilt_call(random)));
    made
}

/// A policy, a stream over its signals, and the text of the stream.
pub struct Wave {
    policy: Policy,
    events: Vec<u8>,
    text: Vec<u8>,
}

impl Wave {
    pub fn new(random: &mut Random, policy: Policy) -> Wave {
        let events = wave_events(random, &policy);
        Wave {
            text: waves::text_of(&policy, &events).into_bytes(),
            policy,
            events,
        }
    }

    /// Now and then over a stream that is too long, or has a bit beyond the
    /// signals.
    pub fn write_call(&self, random: &mut Random) -> Call {
        let mut events = self.events.clone();
        if random.percent(8) {
            events.resize(MOST_EVENTS + random.pick(&[1, 1, 2, 700]), 0);
        }
        if random.percent(12) && !events.is_empty() {
            let place = random.pick(&[0, events.len() / 2, events.len() - 1]);
            events[place] = 1 << random.below(8);
        }
        let length = lent_length(random, self.text.len());
        Call::WaveWrite {
            file: self.policy.encode(),
            events,
            text: filler(random, length),
        }
    }

    pub fn read_call(&self, random: &mut Random) -> Call {
        self.call_to_read(random, self.text.clone())
    }

    fn spoilt_call(&self, random: &mut Random) -> Call {
        let text = spoil::spoilt(random, &self.text);
        self.call_to_read(random, text)
    }

    fn call_to_read(&self, random: &mut Random, text: Vec<u8>) -> Call {
        // A spoilt text may be that of a longer stream, and is to be refused
        // for what it is rather than for want of room.
        let needed = match random.percent(30) {
            true => MOST_EVENTS,
            false => self.events.len(),
        };
        let length = lent_length(random, needed);
        Call::WaveRead {
            file: self.policy.encode(),
            text,
            events: filler(random, length),
        }
    }
}

/// Events over the signals of the policy: any, few changes, none, or at every
/// tick all signals; few or as many as there can be.
fn wave_events(random: &mut Random, policy: &Policy) -> Vec<u8> {
    let mask = policy.event_mask();
    let length = match random.below(40) {
        0..=2 => MOST_EVENTS - random.between(0, 2),
        3 => random.between(900, 1_100),
        4 => random.between(9_995, 10_005),
        5..=8 => random.between(90, 110),
        9..=15 => random.between(0, 2),
        _ => random.between(0, 16),
    };
    let steady = random.byte() & mask;
    let chance = match length {
        0..=110 => random.pick(&[0, 10, 50, 100]),
        // Of a long stream all is written but seldom.
        _ => random.pick(&[0, 0, 0, 0, 0, 0, 1, 100]),
    };
    let all = random.percent(30);
    let mut event = steady;
    let mut next = || {
        if random.percent(chance) {
            event = match all {
                true => event ^ mask,
                false => random.byte() & mask,
            };
        }
        event
    };
    (0..length).map(|_| next()).collect()
}
