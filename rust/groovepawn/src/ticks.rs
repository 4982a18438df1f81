//! Milliseconds and ticks.

use crate::answer::value;
use crate::call;
use crate::refusal::Refusal;

/// Which way a time that is no whole number of ticks is rounded.
#[derive(Clone, Copy, Debug, PartialEq, Eq)]
pub enum Rounding {
    /// To the ticks that are over by then.
    Down,
    /// To the tick by which it is over.
    Up,
}

/// A time in milliseconds as ticks of so many milliseconds. Refusals: 18, 19.
///
/// ```
/// use groovepawn::{ticks, Rounding};
///
/// assert_eq!(ticks(250, 100, Rounding::Down), Ok(2));
/// assert_eq!(ticks(250, 100, Rounding::Up), Ok(3));
/// assert_eq!(ticks(100_001, 100, Rounding::Up).unwrap_err().number(), 19);
/// assert_eq!(ticks(1, 0, Rounding::Up).unwrap_err().number(), 18);
/// ```
pub fn ticks(milliseconds: u32, tick_length: u32, rounding: Rounding) -> Result<u16, Refusal> {
    let up = u8::from(rounding == Rounding::Up);
    value(call::ticks(milliseconds, tick_length, up)).map(|ticks| ticks as u16)
}
