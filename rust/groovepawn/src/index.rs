//! The index of a policy's rules.

use crate::call::INDEX_LEN;

/// For each location its first rule and how many it has, built once by
/// [`Policy::index`](crate::Policy::index).
#[derive(Clone, Debug, PartialEq, Eq)]
pub struct Index {
    pub(crate) numbers: [u16; INDEX_LEN],
}

impl Index {
    /// An index kept as numbers. The halves that use one refuse any that is not the
    /// policy's own.
    pub fn from_numbers(numbers: [u16; INDEX_LEN]) -> Index {
        Index { numbers }
    }

    /// Its numbers: for each of 64 locations the first rule and the count.
    pub fn numbers(&self) -> &[u16; INDEX_LEN] {
        &self.numbers
    }

    /// The numbers of a location's rules, counted from 0.
    ///
    /// # Panics
    ///
    /// If there can be no such location: 64 or above.
    pub fn rules(&self, location: usize) -> std::ops::Range<usize> {
        let first = usize::from(self.numbers[2 * location]);
        first..first + usize::from(self.numbers[2 * location + 1])
    }
}
