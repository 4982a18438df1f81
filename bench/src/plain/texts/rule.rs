//! A rule as its line draws it.

use super::super::policy::{BOUND_LENGTH, HEAD_LENGTH, MAX_CLOCKS};
use super::super::refusal::Refusal;
use super::super::rule::{NO_UPPER_BOUND, VIOLATION};
use super::draft::{Draft, Signals};
use super::words::Words;

/// All but the source.
pub struct Drawn {
    /// Care and value of the inputs, then of the outputs.
    halves: [(u8, u8); 2],
    reset: u8,
    target: u8,
    lows: [u16; MAX_CLOCKS],
    highs: [u16; MAX_CLOCKS],
}

impl Drawn {
    pub fn read(draft: &Draft, words: &mut Words) -> Result<Drawn, Refusal> {
        let mut drawn = Drawn {
            halves: [(0, 0); 2],
            reset: 0,
            target: VIOLATION,
            lows: [0; MAX_CLOCKS],
            highs: [NO_UPPER_BOUND; MAX_CLOCKS],
        };
        drawn.conditions(draft, words)?;
        drawn.target(draft, words)?;
        drawn.resets(draft, words)?;
        drawn.check(&draft.ceilings[..draft.clocks.count])?;
        Ok(drawn)
    }

    fn conditions(&mut self, draft: &Draft, words: &mut Words) -> Result<(), Refusal> {
        let mut word = words.some()?;
        if word == b"any" {
            return words.expect(b"->");
        }
        loop {
            self.condition(draft, word, words)?;
            word = words.some()?;
            if word == b"->" {
                return Ok(());
            }
        }
    }

    fn condition(&mut self, draft: &Draft, word: &[u8], words: &mut Words) -> Result<(), Refusal> {
        let name = word.strip_prefix(b"!").unwrap_or(word);
        let on = name.len() == word.len();
        let signals: [&Signals; 2] = [&draft.inputs, &draft.outputs];
        for (half, signals) in self.halves.iter_mut().zip(signals) {
            if let Some(place) = signals.find(name) {
                half.1 |= u8::from(on) << place;
                return once(&mut half.0, place);
            }
        }
        match draft.clocks.find(name) {
            Some(clock) if on => self.bound(clock, words),
            _ => Err(Refusal::BadName),
        }
    }

    /// The greatest low and the least high count.
    fn bound(&mut self, clock: usize, words: &mut Words) -> Result<(), Refusal> {
        match words.next() {
            b">=" => self.lows[clock] = self.lows[clock].max(words.number()?),
            b"<=" => self.highs[clock] = self.highs[clock].min(words.number()?),
            _ => return Err(Refusal::BadWord),
        }
        Ok(())
    }

    fn target(&mut self, draft: &Draft, words: &mut Words) -> Result<(), Refusal> {
        let word = words.some()?;
        if word != b"violation" {
            self.target = draft.locations.find(word).ok_or(Refusal::BadName)? as u8;
        }
        Ok(())
    }

    fn resets(&mut self, draft: &Draft, words: &mut Words) -> Result<(), Refusal> {
        match words.next() {
            b"" => return Ok(()),
            b"reset" => {}
            _ => return Err(Refusal::BadWord),
        }
        let mut name = words.some()?;
        while !name.is_empty() {
            let clock = draft.clocks.find(name).ok_or(Refusal::BadName)?;
            once(&mut self.reset, clock)?;
            name = words.next();
        }
        Ok(())
    }

    fn check(&self, ceilings: &[u16]) -> Result<(), Refusal> {
        for (clock, &ceiling) in ceilings.iter().enumerate() {
            let (low, high) = (self.lows[clock], self.highs[clock]);
            let upper = high < ceiling || high == NO_UPPER_BOUND;
            if low > high || low > ceiling || !upper {
                return Err(Refusal::BadBounds);
            }
        }
        Ok(())
    }

    /// As it stands in the file.
    pub fn put(&self, source: usize, rule: &mut [u8]) {
        let [(input_care, input), (output_care, output)] = self.halves;
        let (head, bounds) = rule.split_at_mut(HEAD_LENGTH);
        head.copy_from_slice(&[
            source as u8,
            input_care,
            input,
            output_care,
            output,
            self.reset,
            self.target,
        ]);
        for (clock, bound) in bounds.chunks_exact_mut(BOUND_LENGTH).enumerate() {
            bound[..2].copy_from_slice(&self.lows[clock].to_be_bytes());
            bound[2..].copy_from_slice(&self.highs[clock].to_be_bytes());
        }
    }
}

/// Nothing is said twice.
fn once(mask: &mut u8, bit: usize) -> Result<(), Refusal> {
    match *mask >> bit & 1 {
        0 => {
            *mask |= 1 << bit;
            Ok(())
        }
        _ => Err(Refusal::BadName),
    }
}
