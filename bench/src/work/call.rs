//! One call that writes one slice of bytes.

use super::{Outcome, Work, FILLER};
use crate::engine::{found_in, Engine, Plain};
use crate::file::{Policy, LONGEST_FILE, MOST_STATES};

/// The longest text there is: 16,384 events over eight signals, all of which
/// change at each.
const LONGEST_TEXT: usize = 497_013;

/// More than any text of a policy has that is written.
const LONGEST_POLICY_TEXT: usize = 39_420;

/// The text of a policy as the plain program writes it.
pub fn text_of(policy: &Policy) -> Vec<u8> {
    let mut text = vec![FILLER; LONGEST_POLICY_TEXT];
    let length = found_in(Plain.text_write(&policy.encode(), &mut text));
    text.truncate(length);
    text
}

pub struct CallWork {
    units: usize,
    ask: Box<Ask>,
    written: Vec<u8>,
    answer: u64,
}

/// A side is asked, and lent what it writes.
type Ask = dyn Fn(&dyn Engine, &mut [u8]) -> u64;

impl CallWork {
    fn new(units: usize, room: usize, ask: Box<Ask>) -> CallWork {
        CallWork {
            units,
            ask,
            written: vec![FILLER; room],
            answer: 0,
        }
    }

    /// The marks of a policy.
    pub fn prepare(reading: u8, file: Vec<u8>) -> CallWork {
        let ask =
            move |engine: &dyn Engine, marks: &mut [u8]| engine.prepare(reading, &file, marks);
        CallWork::new(1, MOST_STATES, Box::new(ask))
    }

    /// Two policies made one.
    pub fn join((first, second): (Policy, Policy)) -> CallWork {
        let (first, second) = (first.encode(), second.encode());
        let ask = move |engine: &dyn Engine, out: &mut [u8]| engine.join(&first, &second, out);
        CallWork::new(1, LONGEST_FILE, Box::new(ask))
    }

    /// A stream written for a wave viewer. A unit is an event.
    pub fn wave_write(policy: &Policy, events: Vec<u8>) -> CallWork {
        let (file, units) = (policy.encode(), events.len());
        let ask =
            move |engine: &dyn Engine, text: &mut [u8]| engine.wave_write(&file, &events, text);
        CallWork::new(units, LONGEST_TEXT, Box::new(ask))
    }

    /// The same stream read back from its text.
    pub fn wave_read(policy: &Policy, events: Vec<u8>) -> CallWork {
        let (file, units) = (policy.encode(), events.len());
        let mut writer = CallWork::wave_write(policy, events);
        let length = found_in(writer.call(&Plain));
        let text = writer.written[..length].to_vec();
        let ask =
            move |engine: &dyn Engine, events: &mut [u8]| engine.wave_read(&file, &text, events);
        CallWork::new(units, units, Box::new(ask))
    }

    /// The text of a policy.
    pub fn text_write(policy: &Policy) -> CallWork {
        CallWork::text_write_into(policy, LONGEST_POLICY_TEXT)
    }

    /// The same where there is a byte of room too few.
    pub fn text_write_refused(policy: &Policy) -> CallWork {
        CallWork::text_write_into(policy, text_of(policy).len() - 1)
    }

    fn text_write_into(policy: &Policy, room: usize) -> CallWork {
        let file = policy.encode();
        let ask = move |engine: &dyn Engine, text: &mut [u8]| engine.text_write(&file, text);
        CallWork::new(1, room, Box::new(ask))
    }

    /// The file of a text.
    pub fn text_read(text: Vec<u8>) -> CallWork {
        let ask = move |engine: &dyn Engine, file: &mut [u8]| engine.text_read(&text, file);
        CallWork::new(1, LONGEST_FILE, Box::new(ask))
    }

    pub fn call(&mut self, engine: &dyn Engine) -> u64 {
        self.answer = (self.ask)(engine, &mut self.written);
        self.answer
    }
}

impl Work for CallWork {
    fn units(&self) -> usize {
        self.units
    }

    fn pass(&mut self, engine: &dyn Engine) {
        self.call(engine);
    }

    fn spoil(&mut self) {
        self.written.fill(FILLER);
    }

    fn outcome(&self) -> Outcome {
        Outcome {
            answers: vec![self.answer],
            bytes: self.written.clone(),
            states: vec![],
        }
    }
}

#[cfg(test)]
mod tests {
    use super::*;
    use crate::policies;
    use crate::streams::WAVES;

    #[test]
    fn the_first_wave_has_the_longest_text() {
        let mut work = CallWork::wave_write(&policies::short(), WAVES[0].events(16_384));
        assert_eq!(found_in(work.call(&Plain)), LONGEST_TEXT);
    }
}
