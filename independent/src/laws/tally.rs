//! How often each law was tried.

use crate::reading::{Reading, READINGS};

/// One law, and how often it was tried on a pair of files that were both
/// there, under each reading.
#[derive(Debug)]
pub struct LawCount {
    pub law: &'static str,
    pub tried: [Tried; READINGS.len()],
}

#[derive(Clone, Copy, Debug, Default)]
pub struct Tried {
    pub hopeless: usize,
    /// Not hopeless, and all locations of the policies may rest.
    pub resting: usize,
    /// Not hopeless, and some location must be left.
    pub leaving: usize,
}

#[derive(Default)]
pub struct LawTally {
    pub laws: Vec<LawCount>,
}

impl LawTally {
    pub fn of(&mut self, law: &'static str, reading: Reading) -> &mut Tried {
        let place = match self.laws.iter().position(|count| count.law == law) {
            Some(place) => place,
            None => {
                let tried = Default::default();
                self.laws.push(LawCount { law, tried });
                self.laws.len() - 1
            }
        };
        &mut self.laws[place].tried[usize::from(reading.number()) - 1]
    }
}
