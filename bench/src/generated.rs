//! Policies made at random, with live and dying states. The same shape and
//! seed always give the same policy.

use crate::file::*;
use crate::random::Random;

pub struct Shape {
    /// How many inputs, and as many outputs.
    pub signals: u8,
    pub locations: u8,
    pub rules_per_location: usize,
    /// Of a hundred rules about so many lead to the violation.
    pub violations: u64,
    pub ceilings: &'static [u16],
}

impl Shape {
    pub fn generate(&self, seed: u64) -> Policy {
        let mut random = Random::new(seed);
        let mut rules = Vec::new();
        for source in 0..self.locations {
            for _ in 0..self.rules_per_location {
                rules.push(self.rule(&mut random, source));
            }
        }
        Policy {
            inputs: self.signals,
            outputs: self.signals,
            ceilings: self.ceilings.to_vec(),
            locations: vec![0; self.locations.into()],
            rules,
        }
    }

    fn rule(&self, random: &mut Random, source: u8) -> Rule {
        let signals = (1 << self.signals) - 1;
        let clocks = self.ceilings.len() as u64;
        let target = match random.percent(self.violations) {
            true => VIOLATION,
            false => random.below(self.locations.into()) as u8,
        };
        Rule {
            source,
            input: some_condition(random, signals),
            output: some_condition(random, signals),
            reset: random.below(1 << clocks) as u8,
            target,
            bounds: self.bounds(random),
        }
    }

    /// About one clock of each rule is bounded, however many there are.
    fn bounds(&self, random: &mut Random) -> Vec<Bound> {
        let clocks = self.ceilings.len() as u64;
        let one = |&ceiling| match random.below(clocks) {
            0 => some_bound(random, ceiling),
            _ => OPEN,
        };
        self.ceilings.iter().map(one).collect()
    }
}

/// Looks at about one signal of four.
fn some_condition(random: &mut Random, signals: u8) -> Condition {
    let care = random.byte() & random.byte() & signals;
    Condition {
        care,
        value: random.byte() & care,
    }
}

/// Leaves clock values without a rule, which is what states die of.
fn some_bound(random: &mut Random, ceiling: u16) -> Bound {
    let value = random.below(ceiling.into()) as u16;
    match random.below(3) {
        0 => (value, NO_UPPER_BOUND),
        1 => (0, value),
        _ => (value / 2, value),
    }
}
