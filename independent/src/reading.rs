//! The two readings of a deadline: which value of a clock the bounds of a rule
//! are tested against.

use crate::refusal::Refusal;

#[derive(Clone, Copy, Debug, PartialEq, Eq)]
pub enum Reading {
    /// Reading 1: the clock is read at the start of a tick.
    AtStart,
    /// Reading 2: the clock is read after the tick is counted.
    Counted,
}

/// In the order of their numbers.
pub const READINGS: [Reading; 2] = [Reading::AtStart, Reading::Counted];

impl Reading {
    /// Any number but 1 and 2 is refused.
    pub fn named(number: u8) -> Result<Reading, Refusal> {
        match number {
            1 => Ok(Reading::AtStart),
            2 => Ok(Reading::Counted),
            _ => Err(Refusal::UnknownReading),
        }
    }

    pub fn number(self) -> u8 {
        match self {
            Reading::AtStart => 1,
            Reading::Counted => 2,
        }
    }

    pub fn other(self) -> Reading {
        match self {
            Reading::AtStart => Reading::Counted,
            Reading::Counted => Reading::AtStart,
        }
    }

    /// What the bounds see of a clock that shows `clock` at the start of the
    /// tick. The clock never stops here, so nothing stops it before it is
    /// read either.
    pub fn seen(self, clock: u64) -> u64 {
        match self {
            Reading::AtStart => clock,
            Reading::Counted => clock + 1,
        }
    }
}

#[cfg(test)]
mod tests {
    use super::*;
    use crate::policies::{self, Size};
    use crate::random::Random;

    #[test]
    fn there_are_two() {
        for number in 0..=255 {
            let named = Reading::named(number);
            assert_eq!(named.is_ok(), number == 1 || number == 2);
            if let Ok(reading) = named {
                assert_eq!(reading.number(), number);
                assert_ne!(reading.other(), reading);
            }
        }
    }

    /// The paper stops the value that reading 2 sees at the ceiling; no bound
    /// that a file may have tells it from one that goes on.
    #[test]
    fn a_stop_at_the_ceiling_changes_no_test() {
        let mut random = Random::new(61);
        let (mut holds, mut fails) = (0, 0);
        for _ in 0..300 {
            let policy = policies::of_size(&mut random, Size::Tiny);
            for (index, &ceiling) in policy.ceilings.iter().enumerate() {
                let ceiling = u64::from(ceiling);
                let bounds: Vec<_> = policy.rules.iter().map(|rule| rule.bounds[index]).collect();
                for clock in 0..ceiling + 3 {
                    for reading in READINGS {
                        let stopped = reading.seen(clock.min(ceiling)).min(ceiling);
                        for bound in &bounds {
                            let held = bound.holds(stopped);
                            assert_eq!(held, bound.holds(reading.seen(clock)));
                            *(if held { &mut holds } else { &mut fails }) += 1;
                        }
                    }
                }
            }
        }
        assert!(holds > 1_000 && fails > 1_000, "{holds}, {fails}");
    }
}
