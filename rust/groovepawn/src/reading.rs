//! The two readings of a deadline.

use crate::refusal::Refusal;

/// When a clock is read. A policy is prepared and run under one reading.
///
/// ```
/// use groovepawn::Reading;
///
/// assert_eq!(Reading::try_from(2), Ok(Reading::AfterCounting));
/// assert_eq!(Reading::try_from(3).unwrap_err().number(), 22);
/// assert_eq!(Reading::AtStart.number(), 1);
/// ```
#[derive(Clone, Copy, Debug, PartialEq, Eq, Default)]
pub enum Reading {
    /// Reading 1: bounds are tested against the value at the start of the tick.
    #[default]
    AtStart,
    /// Reading 2: against that value plus one, stopped at the ceiling.
    AfterCounting,
}

impl Reading {
    /// Both readings.
    pub const BOTH: [Reading; 2] = [Reading::AtStart, Reading::AfterCounting];

    /// The number that the library knows it by.
    pub fn number(self) -> u8 {
        match self {
            Reading::AtStart => 1,
            Reading::AfterCounting => 2,
        }
    }
}

impl TryFrom<u8> for Reading {
    type Error = Refusal;

    fn try_from(number: u8) -> Result<Reading, Refusal> {
        Reading::BOTH
            .into_iter()
            .find(|reading| reading.number() == number)
            .ok_or_else(|| Refusal::of(22))
    }
}
