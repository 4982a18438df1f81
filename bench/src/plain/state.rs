//! A state, its number and its step.

use super::policy::{Policy, MAX_CLOCKS};
use super::reading::Reading;
use super::refusal::Refusal;
use super::rule::{Rule, VIOLATION};

/// A state as it is lent: the location, then the clocks.
pub const STATE_LENGTH: usize = 1 + MAX_CLOCKS;

pub type Clocks = [u16; MAX_CLOCKS];

#[derive(Clone, Copy)]
pub struct State {
    location: u16,
    clocks: Clocks,
}

impl State {
    /// A lent state, refused unless it is in range. The ceiling 0 of unused
    /// clocks keeps them at 0.
    pub fn read(policy: &Policy, lent: &[u16]) -> Result<State, Refusal> {
        let &[location, ref clocks @ ..] = lent else {
            return Err(Refusal::BadState);
        };
        let clocks = <[u16; MAX_CLOCKS]>::try_from(clocks).map_err(|_| Refusal::BadState)?;
        let mut pairs = clocks.iter().zip(&policy.ceilings);
        let in_range = usize::from(location) < policy.locations
            && pairs.all(|(clock, ceiling)| clock <= ceiling);
        if !in_range {
            return Err(Refusal::BadState);
        }
        Ok(State { location, clocks })
    }

    /// `lent` has the length of a state.
    pub fn write(self, lent: &mut [u16]) {
        let [first, second, third, fourth] = self.clocks;
        let state: [u16; STATE_LENGTH] = [self.location, first, second, third, fourth];
        lent.copy_from_slice(&state);
    }

    pub fn numbered(policy: &Policy, number: usize) -> State {
        let mut rest = number;
        let mut clocks = [0; MAX_CLOCKS];
        let used = &policy.ceilings[..policy.clocks];
        for (clock, &ceiling) in clocks.iter_mut().zip(used).rev() {
            let values = usize::from(ceiling) + 1;
            *clock = (rest % values) as u16;
            rest /= values;
        }
        State {
            location: rest as u16,
            clocks,
        }
    }

    pub fn number(self, policy: &Policy) -> usize {
        let pairs = self.clocks.iter().zip(&policy.ceilings);
        pairs.fold(self.location.into(), |number, (&clock, &ceiling)| {
            number * (usize::from(ceiling) + 1) + usize::from(clock)
        })
    }

    /// A state in range has one of at most 64 locations.
    pub fn location(self) -> u8 {
        self.location as u8
    }

    /// The clock values that bounds are tested against here.
    pub fn seen(self, policy: &Policy) -> Clocks {
        match policy.reading {
            Reading::AtStart => self.clocks,
            Reading::Counted => std::array::from_fn(|index| self.counted(policy, index)),
        }
    }

    /// One clock, one up but no further than its ceiling.
    fn counted(self, policy: &Policy, index: usize) -> u16 {
        (self.clocks[index] + 1).min(policy.ceilings[index])
    }

    /// The next state by one of its own rules; nothing for a violation.
    pub fn by(self, policy: &Policy, rule: Rule) -> Option<State> {
        if rule.target() == VIOLATION {
            return None;
        }
        let clocks = std::array::from_fn(|index| match rule.reset() >> index & 1 {
            1 => 0,
            _ => self.counted(policy, index),
        });
        Some(State {
            location: rule.target().into(),
            clocks,
        })
    }
}
