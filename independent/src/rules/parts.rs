//! What random rules are made of: locations, conditions, resets and bounds.

use super::RuleMaker;
use crate::policy::*;

impl RuleMaker<'_> {
    pub(super) fn some_location(&mut self) -> usize {
        self.random.between(0, self.policy.locations() - 1)
    }

    pub(super) fn next_location(&self, location: usize) -> usize {
        (location + 1) % self.policy.locations()
    }

    pub(super) fn near_location(&mut self, location: usize) -> usize {
        match self.random.below(4) {
            0 => location,
            1 => self.next_location(location),
            2 => 0,
            _ => self.some_location(),
        }
    }

    pub(super) fn some_target(&mut self) -> usize {
        if self.random.percent(25) {
            usize::from(VIOLATION)
        } else {
            self.some_location()
        }
    }

    pub(super) fn some_condition(&mut self, signals: u8) -> Condition {
        let care = match self.random.below(10) {
            0..=2 => 0,
            3..=6 => signals & 1 << self.random.below(4),
            7..=8 => signals & self.random.byte(),
            _ => signals,
        };
        Condition {
            care,
            value: care & self.random.byte(),
        }
    }

    pub(super) fn some_resets(&mut self) -> u8 {
        match self.random.below(4) {
            0 => 0,
            1 => self.policy.clock_mask(),
            _ => self.policy.clock_mask() & self.random.byte(),
        }
    }

    /// Mostly open, since each further bound makes a rule apply less.
    pub(super) fn some_bounds(&mut self) -> [Bound; MAX_CLOCKS] {
        let mut bounds = [Bound::OPEN; MAX_CLOCKS];
        for (bound, &ceiling) in bounds.iter_mut().zip(&self.policy.ceilings) {
            if self.random.percent(45) {
                *bound = self.some_bound(ceiling);
            }
        }
        bounds
    }

    /// One clock bounded by `make`, the others open.
    pub(super) fn one_bound(&mut self, make: fn(&mut Self, u16) -> Bound) -> [Bound; MAX_CLOCKS] {
        let mut bounds = [Bound::OPEN; MAX_CLOCKS];
        let clocks = self.policy.ceilings.len();
        if clocks > 0 {
            let clock = self.random.between(0, clocks - 1);
            bounds[clock] = make(self, self.policy.ceilings[clock]);
        }
        bounds
    }

    pub(super) fn some_bound(&mut self, ceiling: u16) -> Bound {
        match self.random.below(3) {
            0 => self.some_low(ceiling),
            1 => self.some_high(ceiling),
            _ => {
                let high = self.high_below(ceiling);
                let low = self.random.between(0, usize::from(high)) as u16;
                Bound { low, high }
            }
        }
    }

    /// From some value on, often from the ceiling.
    pub(super) fn some_low(&mut self, ceiling: u16) -> Bound {
        let low = match self.random.below(3) {
            0 => ceiling,
            _ => self.random.between(0, usize::from(ceiling)) as u16,
        };
        Bound {
            low,
            high: NO_UPPER_BOUND,
        }
    }

    /// Up to some value, often the last below the ceiling.
    pub(super) fn some_high(&mut self, ceiling: u16) -> Bound {
        Bound {
            low: 0,
            high: self.high_below(ceiling),
        }
    }

    pub(super) fn high_below(&mut self, ceiling: u16) -> u16 {
        match self.random.below(3) {
            0 => ceiling - 1,
            _ => self.random.between(0, usize::from(ceiling) - 1) as u16,
        }
    }
}
