//! One call of one function with everything lent to it, and what came of it.

mod asked;
mod functions;
mod lent;
mod made;
mod shown;

use crate::basis::Basis;
pub(crate) use asked::call;
pub use asked::Asked;
pub use functions::{Call, Given, Place, Work, FUNCTIONS};
pub use made::Outcome;

impl Call {
    /// The reading that the caller names, if the function takes one.
    pub fn reading(&self) -> Option<u8> {
        match self.given()[0] {
            ("reading", Given::Byte(reading)) => Some(*reading),
            _ => None,
        }
    }

    /// What a tick goes by, as far as the function is given it.
    fn basis(&self) -> Basis<'_> {
        let mut basis = Basis::default();
        for (name, given) in self.given() {
            match (name, given) {
                ("reading", Given::Byte(reading)) => basis.reading = *reading,
                ("file", Given::Policy(file)) => basis.file = file,
                ("marks", Given::Bytes(marks)) => basis.marks = marks,
                _ => {}
            }
        }
        basis
    }

    /// The text to be read, of a wave or of a policy.
    fn text(&self) -> Option<&[u8]> {
        self.given().iter().find_map(|(name, given)| match given {
            Given::Bytes(text) if *name == "text" => Some(&text[..]),
            _ => None,
        })
    }

    /// The same call under another reading, if it takes one.
    pub fn under(mut self, other: u8) -> Call {
        if self.reading().is_some() {
            if let Place::Byte(reading) = &mut self.places()[0] {
                **reading = other;
            }
        }
        self
    }

    /// The same call about another file: of a join, the first.
    pub fn with_file(mut self, other: Vec<u8>) -> Call {
        for place in self.places() {
            if let Place::Policy(file) = place {
                *file = other;
                break;
            }
        }
        self
    }
}
