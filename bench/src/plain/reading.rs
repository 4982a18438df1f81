//! The two readings of a deadline.

use super::refusal::Refusal;

/// When a clock is read against the bounds of a rule.
#[derive(Clone, Copy, Debug, PartialEq, Eq)]
pub enum Reading {
    /// 1: at the start of a tick.
    AtStart,
    /// 2: after the tick is counted.
    Counted,
}

impl Reading {
    pub fn named(number: u8) -> Result<Reading, Refusal> {
        match number {
            1 => Ok(Reading::AtStart),
            2 => Ok(Reading::Counted),
            _ => Err(Refusal::UnknownReading),
        }
    }
}
