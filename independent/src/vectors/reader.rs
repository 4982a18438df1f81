//! Reads a file of stored cases.

use super::parts::{writes_bytes, writes_list, writes_reasons, writes_state, writes_totals};
use super::MAGIC;
use crate::call::{Call, Outcome, Place};

/// Reads a file of vectors from the front.
struct Reader<'a> {
    rest: &'a [u8],
}

/// Why a file of vectors cannot be read.
const BROKEN: &str = "the file of vectors is cut short or not one";

impl<'a> Reader<'a> {
    fn take(&mut self, length: usize) -> Result<&'a [u8], String> {
        if length > self.rest.len() {
            return Err(BROKEN.to_string());
        }
        let (taken, rest) = self.rest.split_at(length);
        self.rest = rest;
        Ok(taken)
    }

    fn byte(&mut self) -> Result<u8, String> {
        Ok(self.take(1)?[0])
    }

    /// A number of `length` bytes, the high byte first.
    fn number(&mut self, length: usize) -> Result<u64, String> {
        let bytes = self.take(length)?;
        Ok(bytes
            .iter()
            .fold(0, |number, &byte| number << 8 | u64::from(byte)))
    }

    fn string(&mut self) -> Result<Vec<u8>, String> {
        let length = self.number(4)? as usize;
        let mut string = Vec::new();
        while string.len() < length {
            let piece = usize::from(self.byte()?);
            match piece {
                0..=127 => string.extend(self.take(piece + 1)?),
                _ => string.extend(vec![self.byte()?; piece - 127]),
            }
        }
        match string.len() == length {
            true => Ok(string),
            false => Err(BROKEN.to_string()),
        }
    }

    fn numbers(&mut self) -> Result<Vec<u16>, String> {
        let length = self.byte()?;
        (0..length).map(|_| Ok(self.number(2)? as u16)).collect()
    }

    fn totals(&mut self) -> Result<Vec<u32>, String> {
        let length = self.byte()?;
        (0..length).map(|_| Ok(self.number(4)? as u32)).collect()
    }

    fn longs(&mut self) -> Result<Vec<u64>, String> {
        let length = self.byte()?;
        (0..length).map(|_| self.number(8)).collect()
    }

    fn call(&mut self, kind: u8) -> Result<Call, String> {
        let blank = usize::from(kind).checked_sub(1).and_then(Call::blank);
        let mut call = blank.ok_or(BROKEN)?;
        for place in call.places() {
            match place {
                Place::Byte(byte) => *byte = self.byte()?,
                Place::Pair(pair) => *pair = self.number(2)? as u16,
                Place::Word(word) => *word = self.number(4)? as u32,
                Place::Policy(bytes) | Place::Bytes(bytes) => *bytes = self.string()?,
                Place::Numbers(numbers) => *numbers = self.numbers()?,
                Place::Totals(totals) | Place::Table(totals) => *totals = self.totals()?,
                Place::Longs(longs) => *longs = self.longs()?,
                Place::Work(work) => {
                    for numbers in work {
                        *numbers = self.numbers()?;
                    }
                }
            }
        }
        Ok(call)
    }

    fn outcome(&mut self, kind: usize) -> Result<Outcome, String> {
        let mut outcome = Outcome {
            answer: self.number(8)?,
            ..Outcome::default()
        };
        if writes_bytes(kind) {
            outcome.bytes = self.string()?;
        }
        if writes_state(kind) {
            outcome.state = self.numbers()?;
        }
        if writes_totals(kind) {
            outcome.totals = self.totals()?;
        }
        if writes_list(kind) {
            outcome.struck = self.string()?;
        }
        if writes_reasons(kind) {
            outcome.reasons = self.longs()?;
        }
        Ok(outcome)
    }

    fn record(&mut self) -> Result<(Call, Outcome), String> {
        let kind = self.byte()?;
        let length = self.number(4)? as usize;
        let mut body = Reader {
            rest: self.take(length)?,
        };
        let call = body.call(kind)?;
        let outcome = body.outcome(call.kind())?;
        match body.rest.is_empty() {
            true => Ok((call, outcome)),
            false => Err(BROKEN.to_string()),
        }
    }
}

pub fn read(file: &[u8]) -> Result<Vec<(Call, Outcome)>, String> {
    let mut reader = Reader { rest: file };
    if reader.take(MAGIC.len())? != MAGIC {
        return Err(BROKEN.to_string());
    }
    let count = reader.number(4)?;
    let records: Result<Vec<_>, String> = (0..count).map(|_| reader.record()).collect();
    match reader.rest.is_empty() {
        true => records,
        false => Err(BROKEN.to_string()),
    }
}

#[cfg(test)]
mod tests {
    use super::super::writer::put_string;
    use super::*;
    use crate::random::Random;

    #[test]
    fn strings_come_back() {
        let mut random = Random::new(91);
        for length in (0..400).chain([65_600]) {
            for spread in [1, 2, 3, 200] {
                let string: Vec<u8> = (0..length).map(|_| random.below(spread) as u8).collect();
                let mut packed = Vec::new();
                put_string(&mut packed, &string);
                let mut reader = Reader { rest: &packed };
                assert_eq!(reader.string(), Ok(string));
                assert!(reader.rest.is_empty());
            }
        }
    }
}
