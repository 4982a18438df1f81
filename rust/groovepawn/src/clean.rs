//! What cleaning leaves, and what it strikes.

use crate::policy::Policy;

/// A cleaned policy and the list of what went.
#[derive(Clone, Debug, PartialEq, Eq)]
pub struct Cleaned {
    /// The policy without what is of no use under the reading named.
    pub policy: Policy,
    /// What went, in the order of the file: locations, then rules.
    pub struck: Vec<Struck>,
}

/// One thing that cleaning strikes, by its number in the old file.
#[derive(Clone, Copy, Debug, PartialEq, Eq)]
pub enum Struck {
    /// A location that no permitted stream from the start leads to.
    Location(usize),
    /// A rule of such a location.
    RuleOfLocation(usize),
    /// Another rule that decides no event in any state that such a stream leads to.
    Rule(usize),
}

/// How many bytes of the library's list one entry takes.
const ENTRY: usize = 3;

impl Struck {
    /// The entries of the library's list.
    pub(crate) fn of_list(list: &[u8]) -> Vec<Struck> {
        list.chunks_exact(ENTRY).map(Struck::of_entry).collect()
    }

    fn of_entry(entry: &[u8]) -> Struck {
        let number = usize::from(u16::from_be_bytes([entry[1], entry[2]]));
        match entry[0] {
            1 => Struck::Location(number),
            2 => Struck::RuleOfLocation(number),
            _ => Struck::Rule(number),
        }
    }
}
