//! Reads the line of a rule.

use super::reader::{number, Meaning, Reader};
use super::words::Word;
use crate::policy::*;
use crate::refusal::Refusal;
use crate::rules;

/// The words of a line that have not been read.
struct Rest<'a, 'w> {
    words: &'w [Word<'a>],
}

impl<'a> Rest<'a, '_> {
    /// The next word, which must be there.
    fn next(&mut self) -> Result<Word<'a>, Refusal> {
        let (word, rest) = self.words.split_first().ok_or(Refusal::BadWord)?;
        self.words = rest;
        Ok(*word)
    }

    fn is_empty(&self) -> bool {
        self.words.is_empty()
    }

    /// This very word.
    fn expect(&mut self, word: &str) -> Result<(), Refusal> {
        match self.next()?.bytes == word.as_bytes() {
            true => Ok(()),
            false => Err(Refusal::BadWord),
        }
    }

    fn number(&mut self) -> Result<u16, Refusal> {
        number(self.next()?.bytes)
    }
}

pub fn read_rule<'a>(reader: &Reader<'a>, source: u8, words: &[Word<'a>]) -> Result<Rule, Refusal> {
    let rest = &mut Rest { words };
    let mut rule = rules::open(usize::from(source), usize::from(source));
    read_conditions(reader, &mut rule, rest)?;
    rule.target = read_target(reader, rest)?;
    if !rest.is_empty() {
        rest.expect("reset")?;
        rule.reset = read_resets(reader, rest)?;
    }
    bounds_hold(&rule, &reader.read.policy.ceilings)?;
    Ok(rule)
}

/// As far as the arrow, which is read too.
fn read_conditions<'a>(
    reader: &Reader<'a>,
    rule: &mut Rule,
    rest: &mut Rest<'a, '_>,
) -> Result<(), Refusal> {
    let first = rest.next()?;
    if first.bytes == b"any" {
        return rest.expect("->");
    }
    let mut word = first;
    loop {
        read_condition(reader, rule, word, rest)?;
        word = rest.next()?;
        if word.bytes == b"->" {
            return Ok(());
        }
    }
}

/// One condition, which begins with this word.
fn read_condition<'a>(
    reader: &Reader<'a>,
    rule: &mut Rule,
    word: Word<'a>,
    rest: &mut Rest<'a, '_>,
) -> Result<(), Refusal> {
    let (off, name) = match word.bytes {
        [b'!', bytes @ ..] => (true, Word { bytes, ..word }),
        _ => (false, word),
    };
    match reader.meaning_of(name)? {
        Meaning::Input(bit) => signal(&mut rule.input, bit, !off),
        Meaning::Output(bit) => signal(&mut rule.output, bit, !off),
        Meaning::Clock(_) if off => Err(Refusal::BadName),
        Meaning::Clock(clock) => read_bound(&mut rule.bounds[clock], rest),
    }
}

fn signal(condition: &mut Condition, bit: usize, on: bool) -> Result<(), Refusal> {
    mark(&mut condition.care, bit)?;
    condition.value |= u8::from(on) << bit;
    Ok(())
}

/// What comes after the name of a clock. All conditions must hold, so of several
/// lows the greatest counts, and of several highs the least.
fn read_bound(bound: &mut Bound, rest: &mut Rest) -> Result<(), Refusal> {
    match rest.next()?.bytes {
        b">=" => bound.low = bound.low.max(rest.number()?),
        b"<=" => bound.high = bound.high.min(rest.number()?),
        _ => return Err(Refusal::BadWord),
    }
    Ok(())
}

/// What has been said is not said again.
fn mark(mask: &mut u8, bit: usize) -> Result<(), Refusal> {
    let before = *mask;
    *mask |= 1 << bit;
    match *mask != before {
        true => Ok(()),
        false => Err(Refusal::BadName),
    }
}

fn read_target<'a>(reader: &Reader<'a>, rest: &mut Rest<'a, '_>) -> Result<u8, Refusal> {
    let word = rest.next()?;
    match word.bytes {
        b"violation" => Ok(VIOLATION),
        _ => reader.location_of(word),
    }
}

/// At least one.
fn read_resets<'a>(reader: &Reader<'a>, rest: &mut Rest<'a, '_>) -> Result<u8, Refusal> {
    let mut reset = 0;
    loop {
        match reader.meaning_of(rest.next()?)? {
            Meaning::Clock(clock) => mark(&mut reset, clock)?,
            _ => return Err(Refusal::BadName),
        }
        if rest.is_empty() {
            return Ok(reset);
        }
    }
}

/// "A low above its high or above the ceiling, a high not below the ceiling."
fn bounds_hold(rule: &Rule, ceilings: &[u16]) -> Result<(), Refusal> {
    let holds = |(bound, &ceiling): (&Bound, &u16)| {
        let high = bound.high == NO_UPPER_BOUND || bound.high < ceiling;
        high && bound.low <= bound.high && bound.low <= ceiling
    };
    match rule.bounds.iter().zip(ceilings).all(holds) {
        true => Ok(()),
        false => Err(Refusal::BadBounds),
    }
}
