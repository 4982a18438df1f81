//! Where a policy stands, with clocks that never stop, and the number of the
//! stopped state that stands for it.

use crate::policy::{Bound, Policy, Rule, MAX_CLOCKS, VIOLATION};
use crate::reading::Reading;
use crate::refusal::Refusal;

/// A state as it is lent: the location, then four clocks.
pub const STATE_LENGTH: usize = 1 + MAX_CLOCKS;

/// A location and clocks that go on counting past their ceilings.
#[derive(Clone, Copy, Debug, PartialEq, Eq)]
pub struct Moment {
    pub location: u8,
    pub clocks: [u64; MAX_CLOCKS],
}

impl Moment {
    pub const START: Moment = Moment {
        location: 0,
        clocks: [0; MAX_CLOCKS],
    };

    pub fn satisfies(&self, rule: &Rule, reading: Reading) -> bool {
        let mut pairs = rule.bounds.iter().zip(&self.clocks);
        let holds = |(bound, &clock): (&Bound, &u64)| bound.holds(reading.seen(clock));
        rule.source == self.location && pairs.all(holds)
    }

    /// The next moment if `rule` decides, or nothing if that is a violation.
    /// It is worked out from the start of the tick, whatever the reading.
    pub fn after(&self, rule: &Rule) -> Option<Moment> {
        if rule.target == VIOLATION {
            return None;
        }
        let mut next = Moment {
            location: rule.target,
            clocks: [0; MAX_CLOCKS],
        };
        for (index, clock) in next.clocks.iter_mut().enumerate() {
            if rule.reset >> index & 1 == 0 {
                *clock = self.clocks[index] + 1;
            }
        }
        Some(next)
    }
}

/// The numbering of the stopped states of one policy, as place values.
pub struct Numbering {
    ceilings: Vec<u64>,
    /// What one step of each clock adds to the number of the state.
    weights: Vec<u64>,
    per_location: u64,
    states: u64,
}

impl Numbering {
    pub fn new(policy: &Policy) -> Numbering {
        let ceilings: Vec<u64> = policy.ceilings.iter().map(|&c| u64::from(c)).collect();
        let mut weights = vec![0; ceilings.len()];
        let mut weight = 1;
        for (place, ceiling) in weights.iter_mut().zip(&ceilings).rev() {
            *place = weight;
            weight *= ceiling + 1;
        }
        Numbering {
            ceilings,
            weights,
            per_location: weight,
            states: policy.states(),
        }
    }

    pub fn states(&self) -> usize {
        self.states as usize
    }

    /// The number of the stopped state for `moment`: every clock counts as no
    /// more than its ceiling.
    pub fn number(&self, moment: &Moment) -> usize {
        let mut number = u64::from(moment.location) * self.per_location;
        for (index, weight) in self.weights.iter().enumerate() {
            number += weight * moment.clocks[index].min(self.ceilings[index]);
        }
        number as usize
    }

    /// The moment whose clocks show just the values of state `number`.
    pub fn moment(&self, number: usize) -> Moment {
        let mut rest = number as u64;
        let mut moment = Moment::START;
        moment.location = (rest / self.per_location) as u8;
        rest %= self.per_location;
        for (index, weight) in self.weights.iter().enumerate() {
            moment.clocks[index] = rest / weight;
            rest %= weight;
        }
        moment
    }

    /// The lent form of a moment, each clock stopped at its ceiling. Unused
    /// clocks are 0, although they too count in a moment.
    pub fn stopped(&self, moment: &Moment) -> [u16; STATE_LENGTH] {
        let mut state = [0; STATE_LENGTH];
        state[0] = u16::from(moment.location);
        for (index, &ceiling) in self.ceilings.iter().enumerate() {
            state[index + 1] = moment.clocks[index].min(ceiling) as u16;
        }
        state
    }

    /// A lent state, refused by 16 unless it is in range. Its mark is not
    /// looked at here.
    pub fn read(&self, policy: &Policy, state: &[u16]) -> Result<Moment, Refusal> {
        let Ok([location, clocks @ ..]) = <[u16; STATE_LENGTH]>::try_from(state) else {
            return Err(Refusal::BadState);
        };
        let in_range = |index: usize| match self.ceilings.get(index) {
            Some(&ceiling) => u64::from(clocks[index]) <= ceiling,
            None => clocks[index] == 0,
        };
        if usize::from(location) >= policy.locations() || !(0..MAX_CLOCKS).all(in_range) {
            return Err(Refusal::BadState);
        }
        Ok(Moment {
            location: location as u8,
            clocks: clocks.map(u64::from),
        })
    }
}

#[cfg(test)]
mod tests {
    use super::*;

    fn two_clocks() -> Policy {
        Policy {
            inputs: vec![],
            outputs: vec![],
            ceilings: vec![2, 4],
            must_leave: vec![false; 3],
            rules: vec![],
        }
    }

    #[test]
    fn numbers_are_those_of_the_paper() {
        // Location 2, clocks 1 and 3: (2 x 3 + 1) x 5 + 3.
        let numbering = Numbering::new(&two_clocks());
        let moment = Moment {
            location: 2,
            clocks: [1, 3, 0, 0],
        };
        assert_eq!(numbering.number(&moment), 38);
        let late = Moment {
            location: 2,
            clocks: [1_000_000, 1 << 40, 0, 0],
        };
        assert_eq!(numbering.number(&late), 44);
        assert_eq!(numbering.states(), 45);
    }

    #[test]
    fn every_number_comes_back() {
        let policy = two_clocks();
        let numbering = Numbering::new(&policy);
        for number in 0..numbering.states() {
            let moment = numbering.moment(number);
            assert_eq!(numbering.number(&moment), number);
            let state = numbering.stopped(&moment);
            assert_eq!(numbering.read(&policy, &state), Ok(moment));
        }
    }
}
