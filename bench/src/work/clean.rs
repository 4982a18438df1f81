//! A policy cleaned. The plain program does not, so this is no piece of work for
//! both sides.

use super::FILLER;
use crate::file::{LONGEST_FILE, LONGEST_LIST};

/// One call of clean, with room enough.
#[derive(PartialEq)]
pub struct CleanWork {
    reading: u8,
    file: Vec<u8>,
    cleaned: Vec<u8>,
    struck: Vec<u8>,
    answer: u64,
}

impl CleanWork {
    pub fn new(reading: u8, file: Vec<u8>) -> CleanWork {
        CleanWork {
            reading,
            file,
            cleaned: vec![FILLER; LONGEST_FILE],
            struck: vec![FILLER; LONGEST_LIST],
            answer: 0,
        }
    }

    /// A function that answers as the library's does:
    /// refusal | length << 8 | length of the list << 32
    pub fn clean(&mut self, clean: impl Fn(u8, &[u8], &mut [u8], &mut [u8]) -> u64) -> u64 {
        let (cleaned, struck) = (&mut self.cleaned, &mut self.struck);
        self.answer = clean(self.reading, &self.file, cleaned, struck);
        self.answer
    }

    /// What the last call struck out, three bytes an entry.
    pub fn list(&self) -> &[u8] {
        &self.struck[..(self.answer >> 32) as usize]
    }
}
