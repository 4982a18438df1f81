//! What is measured: the functions of the library, with its packed answers.

use crate::basis::Basis;
use crate::plain;

/// The location, then four clocks.
pub const STATE_LENGTH: usize = 5;
pub type State = [u16; STATE_LENGTH];
pub const START: State = [0; STATE_LENGTH];

/// Anything that answers as the library's C functions do: the refusal in the
/// lowest byte, 0 for none, and above it what the function found.
pub trait Engine {
    /// refusal | verdict << 8 | states << 16 | live << 40
    fn prepare(&self, reading: u8, file: &[u8], marks: &mut [u8]) -> u64;

    /// refusal | x' << 8
    fn input(&self, basis: Basis, state: &[u16], x: u8) -> u64;

    /// refusal | y' << 8
    fn output(&self, basis: Basis, state: &mut [u16], x: u8, y: u8) -> u64;

    /// refusal | events released << 8
    fn run(&self, basis: Basis, state: &mut [u16], events: &[u8], released: &mut [u8]) -> u64;

    /// refusal | length << 8
    fn join(&self, a: &[u8], b: &[u8], out: &mut [u8]) -> u64;

    /// refusal | length << 8
    fn wave_write(&self, file: &[u8], events: &[u8], text: &mut [u8]) -> u64;

    /// refusal | events << 8
    fn wave_read(&self, file: &[u8], text: &[u8], events: &mut [u8]) -> u64;

    /// refusal | line << 8 | length << 40
    fn text_read(&self, text: &[u8], file: &mut [u8]) -> u64;

    /// refusal | length << 8
    fn text_write(&self, file: &[u8], text: &mut [u8]) -> u64;
}

/// The refusal in an answer; 0 for none.
pub fn refusal_in(answer: u64) -> u8 {
    answer as u8
}

/// What stands above the refusal in an answer of all functions but prepare and
/// the reader of texts.
pub fn found_in(answer: u64) -> usize {
    (answer >> 8) as usize
}

/// The plain program.
pub struct Plain;

impl Engine for Plain {
    fn prepare(&self, reading: u8, file: &[u8], marks: &mut [u8]) -> u64 {
        match plain::prepare(reading, file, marks) {
            Ok(prepared) => {
                let counts = (prepared.states as u64) << 16 | (prepared.live as u64) << 40;
                u64::from(prepared.verdict) << 8 | counts
            }
            Err(refusal) => u64::from(refusal.number()),
        }
    }

    fn input(&self, basis: Basis, state: &[u16], x: u8) -> u64 {
        packed(plain::input(basis, state, x))
    }

    fn output(&self, basis: Basis, state: &mut [u16], x: u8, y: u8) -> u64 {
        packed(plain::output(basis, state, x, y))
    }

    fn run(&self, basis: Basis, state: &mut [u16], events: &[u8], released: &mut [u8]) -> u64 {
        match plain::run(basis, state, events, released) {
            Ok(end) => {
                let refusal = end.refusal.map_or(0, plain::Refusal::number);
                u64::from(refusal) | (end.released as u64) << 8
            }
            Err(refusal) => u64::from(refusal.number()),
        }
    }

    fn join(&self, a: &[u8], b: &[u8], out: &mut [u8]) -> u64 {
        packed(plain::join(a, b, out).map(|length| length as u64))
    }

    fn wave_write(&self, file: &[u8], events: &[u8], text: &mut [u8]) -> u64 {
        packed(plain::wave_write(file, events, text).map(|length| length as u64))
    }

    fn wave_read(&self, file: &[u8], text: &[u8], events: &mut [u8]) -> u64 {
        packed(plain::wave_read(file, text, events).map(|count| count as u64))
    }

    fn text_read(&self, text: &[u8], file: &mut [u8]) -> u64 {
        match plain::text_read(text, file) {
            Ok(length) => (length as u64) << 40,
            Err((refusal, line)) => u64::from(refusal.number()) | (line as u64) << 8,
        }
    }

    fn text_write(&self, file: &[u8], text: &mut [u8]) -> u64 {
        packed(plain::text_write(file, text).map(|length| length as u64))
    }
}

fn packed<T: Into<u64>>(result: Result<T, plain::Refusal>) -> u64 {
    match result {
        Ok(found) => found.into() << 8,
        Err(refusal) => u64::from(refusal.number()),
    }
}
