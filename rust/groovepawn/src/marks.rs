//! Marks: which states have a future.

use crate::answer::field;
use crate::call::Basis;
use crate::policy::Policy;
use crate::reading::Reading;

/// One byte for each state, 1 live and 0 not, and the reading that they belong to.
#[derive(Clone, Debug, PartialEq, Eq)]
pub struct Marks {
    pub(crate) reading: Reading,
    pub(crate) bytes: Vec<u8>,
}

impl Marks {
    /// Marks that were made before and kept, in a file or in flash. They are taken as
    /// they are: with others than those of the policy under this reading it is not
    /// promised that it is enforced.
    pub fn from_bytes(reading: Reading, bytes: Vec<u8>) -> Marks {
        Marks { reading, bytes }
    }

    /// The reading that they were made under.
    pub fn reading(&self) -> Reading {
        self.reading
    }

    /// The marks, by the number of the state.
    pub fn bytes(&self) -> &[u8] {
        &self.bytes
    }

    /// How many states are live.
    pub fn live(&self) -> usize {
        self.bytes.iter().filter(|&&mark| mark == 1).count()
    }

    /// What a call takes first.
    pub(crate) fn basis<'a>(&'a self, policy: &'a Policy) -> Basis<'a> {
        Basis {
            reading: self.reading.number(),
            file: policy.bytes(),
            marks: &self.bytes,
        }
    }
}

/// What preparing a policy says of it.
#[derive(Clone, Copy, Debug, PartialEq, Eq)]
pub struct Summary {
    /// Whether some permitted stream from the start leads to a state that is not
    /// live: verdict 1, else 0.
    pub trimmed: bool,
    /// How many states there are.
    pub states: usize,
    /// How many of them are live.
    pub live: usize,
}

impl Summary {
    pub(crate) fn of_value(value: u64) -> Summary {
        Summary {
            trimmed: field(value, 0, 8) != 0,
            states: field(value, 8, 24) as usize,
            live: field(value, 32, 24) as usize,
        }
    }

    /// The library's number for it: 0 or 1.
    pub fn verdict(self) -> u8 {
        u8::from(self.trimmed)
    }
}
