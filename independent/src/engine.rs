//! The functions under comparison, with their answers packed into one
//! number, and the model as one maker of such answers.

use crate::basis::Basis;
use crate::bays;
use crate::call::Work;
use crate::clean;
use crate::enforce;
use crate::index::{self, Indexed};
use crate::join;
use crate::meter::{self, Lent};
use crate::parse;
use crate::refusal::Refusal;
use crate::text::{self, Failure, Sought};
use crate::ticks::{self, Rounding};
use crate::waves;
use crate::why::{self, Told};

/// Anything that answers as the library's C functions do: the refusal in the
/// lowest byte, 0 for none, and above it what the function found.
pub trait Engine {
    /// refusal | verdict << 8 | states << 16 | live << 40
    fn prepare(&mut self, reading: u8, file: &[u8], marks: &mut [u8]) -> u64;

    /// refusal | x' << 8
    fn input(&mut self, basis: Basis, state: &[u16], x: u8) -> u64;

    /// refusal | y' << 8
    fn output(&mut self, basis: Basis, state: &mut [u16], x: u8, y: u8) -> u64;

    /// refusal | events released << 8
    fn run(&mut self, basis: Basis, state: &mut [u16], events: &[u8], released: &mut [u8]) -> u64;

    /// refusal | length << 8
    fn join(&mut self, a: &[u8], b: &[u8], out: &mut [u8]) -> u64;

    /// refusal | ticks << 8
    fn ticks(&mut self, milliseconds: u32, tick_length: u32, up: u8) -> u64;

    /// refusal | length << 8
    fn wave_write(&mut self, file: &[u8], events: &[u8], text: &mut [u8]) -> u64;

    /// refusal | events << 8
    fn wave_read(&mut self, file: &[u8], text: &[u8], events: &mut [u8]) -> u64;

    /// refusal
    fn index(&mut self, file: &[u8], index: &mut [u16]) -> u64;

    /// refusal | x' << 8
    fn input_indexed(&mut self, indexed: Indexed, state: &[u16], x: u8) -> u64;

    /// refusal | y' << 8
    fn output_indexed(&mut self, indexed: Indexed, state: &mut [u16], x: u8, y: u8) -> u64;

    /// refusal
    fn bays_new(&mut self, states: &mut [u16]) -> u64;

    /// refusal | x' << 8
    fn bay_input(&mut self, basis: Basis, states: &[u16], bay: u32, x: u8) -> u64;

    /// refusal | y' << 8
    fn bay_output(&mut self, basis: Basis, states: &mut [u16], bay: u32, x: u8, y: u8) -> u64;

    /// refusal
    fn meter_new(&mut self, station: &mut [u16], totals: &mut [u32], register: u16) -> u64;

    /// refusal | x' << 8
    fn meter_input(&mut self, basis: Basis, station: &[u16], register: u16, x: u8) -> u64;

    /// refusal | y' << 8
    fn meter_output(&mut self, basis: Basis, lent: Lent, register: u16, x: u8, y: u8) -> u64;

    /// As prepare. What the work slices hold afterwards is not said.
    fn prepare_fast(&mut self, reading: u8, file: &[u8], marks: &mut [u8], work: &mut Work) -> u64;

    /// refusal | length << 8 | length of the list << 32
    fn clean(&mut self, reading: u8, file: &[u8], cleaned: &mut [u8], struck: &mut [u8]) -> u64;

    /// refusal | input's kind << 8 | its number << 16 | output's kind << 32 |
    /// its number << 40
    fn why(&mut self, basis: Basis, state: &[u16], x: u8, y: u8) -> u64;

    /// refusal | states << 8
    fn check(&mut self, file: &[u8]) -> u64;

    /// refusal | events explained << 8
    fn why_run(&mut self, basis: Basis, state: &mut [u16], events: &[u8], told: Told) -> u64;

    /// refusal | line << 8 | length << 40
    fn text_read(&mut self, text: &[u8], file: &mut [u8]) -> u64;

    /// refusal | length << 8
    fn text_write(&mut self, file: &[u8], text: &mut [u8]) -> u64;

    /// Of a rule: refusal | line << 8. Of a name: refusal | where << 8 |
    /// length << 40, where being the line with a refusal, and else the byte
    /// where the name begins.
    fn text_place(&mut self, sought: Sought, text: &[u8], number: u32) -> u64;

    /// Whether, since this was last asked, a byte was changed that was not
    /// lent for writing.
    fn strayed(&mut self) -> bool {
        false
    }

    /// The same, as an error.
    fn kept_to_what_was_lent(&mut self) -> Result<(), String> {
        match self.strayed() {
            true => Err("a byte not lent for writing was changed".to_string()),
            false => Ok(()),
        }
    }
}

/// The refusal in an answer; 0 for none.
pub fn refusal_in(answer: u64) -> u8 {
    answer as u8
}

/// What stands above the refusal in an answer of all functions but prepare.
pub fn found_in(answer: u64) -> usize {
    (answer >> 8) as usize
}

/// The reading of the paper in this program.
pub struct Model;

impl Engine for Model {
    fn prepare(&mut self, reading: u8, file: &[u8], marks: &mut [u8]) -> u64 {
        prepared(enforce::prepare(reading, file, marks))
    }

    fn input(&mut self, basis: Basis, state: &[u16], x: u8) -> u64 {
        packed(enforce::input_half(basis, state, x))
    }

    fn output(&mut self, basis: Basis, state: &mut [u16], x: u8, y: u8) -> u64 {
        packed(enforce::output_half(basis, state, x, y))
    }

    fn run(&mut self, basis: Basis, state: &mut [u16], events: &[u8], released: &mut [u8]) -> u64 {
        let end = enforce::run(basis, state, events, released);
        let refusal = end.refusal.map_or(0, Refusal::number);
        u64::from(refusal) | (end.released as u64) << 8
    }

    fn join(&mut self, a: &[u8], b: &[u8], out: &mut [u8]) -> u64 {
        packed(join::join(a, b, out).map(|length| length as u64))
    }

    fn ticks(&mut self, milliseconds: u32, tick_length: u32, up: u8) -> u64 {
        let rounding = match up {
            0 => Rounding::Down,
            _ => Rounding::Up,
        };
        packed(ticks::ticks(milliseconds, tick_length, rounding))
    }

    fn wave_write(&mut self, file: &[u8], events: &[u8], text: &mut [u8]) -> u64 {
        packed(waves::write(file, events, text).map(|length| length as u64))
    }

    fn wave_read(&mut self, file: &[u8], text: &[u8], events: &mut [u8]) -> u64 {
        packed(waves::read(file, text, events).map(|count| count as u64))
    }

    fn index(&mut self, file: &[u8], lent: &mut [u16]) -> u64 {
        done(index::index(file, lent))
    }

    fn input_indexed(&mut self, indexed: Indexed, state: &[u16], x: u8) -> u64 {
        packed(index::input_half(indexed, state, x))
    }

    fn output_indexed(&mut self, indexed: Indexed, state: &mut [u16], x: u8, y: u8) -> u64 {
        packed(index::output_half(indexed, state, x, y))
    }

    fn bays_new(&mut self, states: &mut [u16]) -> u64 {
        done(bays::new(states))
    }

    fn bay_input(&mut self, basis: Basis, states: &[u16], bay: u32, x: u8) -> u64 {
        packed(bays::input_half(basis, states, bay, x))
    }

    fn bay_output(&mut self, basis: Basis, states: &mut [u16], bay: u32, x: u8, y: u8) -> u64 {
        packed(bays::output_half(basis, states, bay, x, y))
    }

    fn meter_new(&mut self, station: &mut [u16], totals: &mut [u32], register: u16) -> u64 {
        done(meter::new(station, totals, register))
    }

    fn meter_input(&mut self, basis: Basis, station: &[u16], register: u16, x: u8) -> u64 {
        packed(meter::input_half(basis, station, register, x))
    }

    fn meter_output(&mut self, basis: Basis, lent: Lent, register: u16, x: u8, y: u8) -> u64 {
        packed(meter::output_half(basis, lent, register, x, y))
    }

    fn prepare_fast(&mut self, reading: u8, file: &[u8], marks: &mut [u8], work: &mut Work) -> u64 {
        let room = work.each_ref().map(Vec::len);
        prepared(enforce::prepare_with_room(reading, file, marks, room))
    }

    fn clean(&mut self, reading: u8, file: &[u8], cleaned: &mut [u8], struck: &mut [u8]) -> u64 {
        match clean::clean(reading, file, cleaned, struck) {
            Ok((length, listed)) => (length as u64) << 8 | (listed as u64) << 32,
            Err(refusal) => u64::from(refusal.number()),
        }
    }

    fn why(&mut self, basis: Basis, state: &[u16], x: u8, y: u8) -> u64 {
        match why::why(basis, state, x, y) {
            Ok(reasons) => why::word(reasons),
            Err(refusal) => u64::from(refusal.number()),
        }
    }

    fn check(&mut self, file: &[u8]) -> u64 {
        packed(parse::check(file).map(|policy| policy.states()))
    }

    fn why_run(&mut self, basis: Basis, state: &mut [u16], events: &[u8], told: Told) -> u64 {
        packed(why::why_run(basis, state, events, told).map(|count| count as u64))
    }

    fn text_read(&mut self, read: &[u8], file: &mut [u8]) -> u64 {
        match text::read(read, file) {
            Ok(length) => (length as u64) << 40,
            Err(failure) => failed(failure),
        }
    }

    fn text_write(&mut self, file: &[u8], written: &mut [u8]) -> u64 {
        packed(text::write(file, written).map(|length| length as u64))
    }

    fn text_place(&mut self, sought: Sought, read: &[u8], number: u32) -> u64 {
        match text::place(sought, read, number) {
            Ok((place, length)) => (place as u64) << 8 | (length as u64) << 40,
            Err(failure) => failed(failure),
        }
    }
}

/// Of both prepares.
fn prepared(result: Result<enforce::Prepared, Refusal>) -> u64 {
    match result {
        Ok(prepared) => {
            let counts = (prepared.states as u64) << 16 | (prepared.live as u64) << 40;
            u64::from(prepared.verdict) << 8 | counts
        }
        Err(refusal) => u64::from(refusal.number()),
    }
}

/// Of a text that is refused.
fn failed(failure: Failure) -> u64 {
    u64::from(failure.refusal.number()) | (failure.line as u64) << 8
}

/// Of a function that finds nothing.
fn done(result: Result<(), Refusal>) -> u64 {
    packed(result.map(|()| 0u8))
}

fn packed<T: Into<u64>>(result: Result<T, Refusal>) -> u64 {
    match result {
        Ok(found) => found.into() << 8,
        Err(refusal) => u64::from(refusal.number()),
    }
}
