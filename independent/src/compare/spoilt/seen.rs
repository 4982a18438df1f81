//! What a spoilt engine sees of what is lent to it.

use super::{Fault, Spoilt};
use crate::basis::Basis;
use crate::parse;

/// What a tick goes by, as a spoilt reader sees it.
pub struct Seen {
    pub reading: u8,
    pub file: Vec<u8>,
    marks: Vec<u8>,
}

impl Seen {
    pub fn lent(&self) -> Basis<'_> {
        Basis::new(self.reading, &self.file, &self.marks)
    }
}

impl Spoilt {
    /// The reading as a spoilt reader takes it.
    pub fn reading(&self, reading: u8, file: &[u8]) -> u8 {
        let file_refused = || parse::check(file).is_err();
        match reading {
            2 if self.has(Fault::OneReadingOnly) => 1,
            0 if self.has(Fault::ReadingZeroIsOne) => 1,
            3 if self.has(Fault::ReadingThreeIsTwo) => 2,
            0 | 3.. if self.has(Fault::FileBeforeReading) && file_refused() => 1,
            _ => reading,
        }
    }

    pub fn seen(&self, basis: Basis) -> Seen {
        let reading = self.reading(basis.reading, basis.file);
        Seen {
            reading,
            file: self.file(reading, basis.file),
            marks: self.marks(basis.marks),
        }
    }

    /// The file as a spoilt reader sees it.
    pub fn file(&self, reading: u8, file: &[u8]) -> Vec<u8> {
        let Ok(mut policy) = parse::check(file) else {
            return file.to_vec();
        };
        if self.has(Fault::CeilingNotRead) && reading == 2 {
            // A value that stops one below the ceiling meets no low there.
            let clocks = policy.ceilings.clone();
            policy.rules.retain(|rule| {
                let mut bounds = rule.bounds.iter().zip(&clocks);
                bounds.all(|(bound, &ceiling)| bound.low < ceiling)
            });
        }
        if self.has(Fault::LastRuleWins) {
            policy.rules.reverse();
            policy.rules.sort_by_key(|rule| rule.source);
        }
        if self.has(Fault::EveryLocationRests) {
            policy.must_leave.fill(false);
        }
        policy.encode()
    }

    fn marks(&self, marks: &[u8]) -> Vec<u8> {
        match self.has(Fault::AnyMarkIsLive) {
            true => marks.iter().map(|&mark| mark.min(1)).collect(),
            false => marks.to_vec(),
        }
    }
}
