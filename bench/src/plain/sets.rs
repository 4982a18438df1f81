//! Sets of events, one set of outputs for each input.

use super::rule::Condition;

/// As many values as four signals have.
const VALUES: usize = 16;

/// The numbers below n.
pub fn all_below(n: u8) -> u16 {
    ((1u32 << n) - 1) as u16
}

pub fn is_in(set: u16, value: u8) -> bool {
    set >> value & 1 == 1
}

#[derive(Clone, Copy)]
pub struct Sets([u16; VALUES]);

impl Sets {
    pub const EMPTY: Sets = Sets([0; VALUES]);

    /// All events of so many inputs and outputs.
    pub fn full(inputs: u8, outputs: u8) -> Sets {
        let mut sets = [0; VALUES];
        sets[..inputs.into()].fill(all_below(outputs));
        Sets(sets)
    }

    pub fn is_empty(self) -> bool {
        self.0.iter().all(|&set| set == 0)
    }

    /// Takes out the events that agree with both, and returns them.
    pub fn take(&mut self, input: Condition, output: Condition) -> Sets {
        let outputs = output.values();
        let mut taken = [0; VALUES];
        for (x, (left, taken)) in (0..).zip(self.0.iter_mut().zip(&mut taken)) {
            if input.agrees(x) {
                *taken = *left & outputs;
                *left ^= *taken;
            }
        }
        Sets(taken)
    }

    pub fn add(&mut self, other: Sets) {
        for (set, more) in self.0.iter_mut().zip(other.0) {
            *set |= more;
        }
    }

    /// The inputs that have any output.
    pub fn not_empty(self) -> u16 {
        let bits = self.0.iter().rev();
        bits.fold(0, |inputs, &set| inputs << 1 | u16::from(set != 0))
    }
}
