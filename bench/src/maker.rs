//! The same work as the maker of a controller would write it by hand: the file
//! is unpacked once a call into structs and an array of locations, and events
//! are tried one by one. No proofs, no sets, and no memory but its own.

#![forbid(unsafe_code)]

mod enforce;
mod prepare;
mod unpack;

use crate::basis::Basis;
use crate::engine::{Engine, Plain};
use crate::plain::Refusal;
use prepare::Search;
use std::cell::RefCell;
use unpack::Table;

/// What a program in C keeps in variables of a file: it is made once, and every
/// call unpacks into it.
pub struct Maker {
    table: RefCell<Box<Table>>,
    search: RefCell<Search>,
}

impl Maker {
    pub fn new() -> Maker {
        Maker {
            table: RefCell::new(Table::empty()),
            search: RefCell::new(Search::new()),
        }
    }

    /// The file unpacked, under the reading of this number.
    fn unpacked<T>(
        &self,
        reading: u8,
        file: &[u8],
        with: impl FnOnce(&Table) -> Result<T, Refusal>,
    ) -> Result<T, Refusal> {
        let mut table = self.table.borrow_mut();
        table.unpack(reading, file)?;
        with(&table)
    }
}

impl Default for Maker {
    fn default() -> Maker {
        Maker::new()
    }
}

impl Engine for Maker {
    fn prepare(&self, reading: u8, file: &[u8], marks: &mut [u8]) -> u64 {
        let prepared = self.unpacked(reading, file, |table| {
            prepare::prepare(table, marks, &mut self.search.borrow_mut())
        });
        match prepared {
            Ok((verdict, states, live)) => {
                u64::from(verdict) << 8 | (states as u64) << 16 | (live as u64) << 40
            }
            Err(refusal) => u64::from(refusal.number()),
        }
    }

    fn input(&self, basis: Basis, state: &[u16], x: u8) -> u64 {
        let value = self.unpacked(basis.reading, basis.file, |table| {
            enforce::input(table, basis.marks, state, x)
        });
        packed(value.map(u64::from))
    }

    fn output(&self, basis: Basis, state: &mut [u16], x: u8, y: u8) -> u64 {
        let value = self.unpacked(basis.reading, basis.file, |table| {
            enforce::output(table, basis.marks, state, x, y)
        });
        packed(value.map(u64::from))
    }

    fn run(&self, basis: Basis, state: &mut [u16], events: &[u8], released: &mut [u8]) -> u64 {
        let end = self.unpacked(basis.reading, basis.file, |table| {
            enforce::run(table, basis.marks, state, events, released)
        });
        match end {
            Ok(end) => {
                let refusal = end.refusal.map_or(0, Refusal::number);
                u64::from(refusal) | (end.released as u64) << 8
            }
            Err(refusal) => u64::from(refusal.number()),
        }
    }

    // Nothing of these is tried event by event: there is no second way to
    // measure, and the table has no row of them.

    fn join(&self, a: &[u8], b: &[u8], out: &mut [u8]) -> u64 {
        Plain.join(a, b, out)
    }

    fn wave_write(&self, file: &[u8], events: &[u8], text: &mut [u8]) -> u64 {
        Plain.wave_write(file, events, text)
    }

    fn wave_read(&self, file: &[u8], text: &[u8], events: &mut [u8]) -> u64 {
        Plain.wave_read(file, text, events)
    }

    fn text_read(&self, text: &[u8], file: &mut [u8]) -> u64 {
        Plain.text_read(text, file)
    }

    fn text_write(&self, file: &[u8], text: &mut [u8]) -> u64 {
        Plain.text_write(file, text)
    }
}

fn packed(result: Result<u64, Refusal>) -> u64 {
    match result {
        Ok(found) => found << 8,
        Err(refusal) => u64::from(refusal.number()),
    }
}
