//! What an answer of the library is made of: the number of a refusal in its low
//! eight bits, and what stands above it.

use crate::refusal::Refusal;

/// The number above the refusal, or the refusal.
pub(crate) fn value(answer: u64) -> Result<u64, Refusal> {
    match Refusal::of_answer(answer) {
        None => Ok(answer >> 8),
        Some(refusal) => Err(refusal),
    }
}

/// The same where the number is a byte: an input or an output.
pub(crate) fn byte(answer: u64) -> Result<u8, Refusal> {
    value(answer).map(|value| field(value, 0, 8) as u8)
}

/// The same where it is the length of what was written.
pub(crate) fn length(answer: u64) -> Result<usize, Refusal> {
    value(answer).map(|value| usize::try_from(value).expect("no slice is longer"))
}

/// So many bits of a number, from a place on.
pub(crate) fn field(number: u64, from: u32, bits: u32) -> u64 {
    (number >> from) & ((1 << bits) - 1)
}
