//! Calls whose outcomes were worked out from the paper by hand. Nothing here
//! asks the model.

mod annex;
mod bays;
mod check;
mod clean;
mod fast;
mod files;
mod halves;
mod indexes;
mod joins;
mod leaving;
mod meter;
mod readings;
mod runs;
mod texts;
mod times;
mod waves;
mod why;
mod why_run;
mod wrong_files;

use crate::call::{call, Asked, Call, Outcome};
use crate::hex::from_hex;
use crate::moment::STATE_LENGTH;

/// The reading of every call here that does not name another.
const FIRST_READING: u8 = 1;

/// What every slice lent for writing holds before a call here.
const FILLER: u8 = 0xEE;

pub type State = [u16; STATE_LENGTH];
pub const START: State = [0; STATE_LENGTH];

#[derive(Clone)]
pub struct Written {
    pub name: String,
    pub call: Call,
    pub expected: Outcome,
}

impl Written {
    /// The same, with the totals that are then expected.
    fn with_totals(mut self, totals: &[u32]) -> Written {
        self.expected.totals = totals.to_vec();
        self
    }

    /// The same, with the reasons that are then expected.
    fn with_reasons(mut self, reasons: &[u64]) -> Written {
        self.expected.reasons = reasons.to_vec();
        self
    }

    /// The same, with the list that is then expected.
    fn with_list(mut self, struck: &[u8]) -> Written {
        self.expected.struck = struck.to_vec();
        self
    }

    /// The same call under another reading, with what is then expected.
    fn under(self, reading: u8) -> Written {
        Written {
            name: format!("reading {reading}: {}", self.name),
            call: self.call.under(reading),
            ..self
        }
    }
}

pub fn all() -> Vec<Written> {
    with_texts(texts::all())
}

/// Those that are stored: of the texts, some.
pub fn stored() -> Vec<Written> {
    with_texts(texts::stored())
}

fn with_texts(texts: Vec<Written>) -> Vec<Written> {
    [
        files::all(),
        halves::all(),
        runs::all(),
        joins::all(),
        leaving::all(),
        readings::all(),
        indexes::all(),
        bays::all(),
        meter::all(),
        fast::all(),
        annex::all(),
        clean::all(),
        why::all(),
        why_run::all(),
        check::all(),
        wrong_files::all(),
        times::all(),
        texts,
        waves::all(),
    ]
    .concat()
}

fn written(name: &str, call: Call, answer: u64, bytes: Vec<u8>, state: Vec<u16>) -> Written {
    Written {
        name: name.to_string(),
        call,
        expected: Outcome {
            answer,
            bytes,
            state,
            ..Outcome::default()
        },
    }
}

/// What a half is asked under the first reading.
fn about(file: &str, marks: &[u8], x: u8) -> Asked {
    Asked {
        reading: FIRST_READING,
        file: from_hex(file),
        marks: marks.to_vec(),
        x,
    }
}

/// `bytes` at the beginning of a slice of `length` that held the filler.
fn filled(bytes: &[u8], length: usize) -> Vec<u8> {
    let mut slice = bytes.to_vec();
    slice.resize(length, FILLER);
    slice
}

/// A file with a part repeated: `head`, then `times` times `part`.
fn repeated(head: &str, part: &str, times: usize) -> String {
    format!("{head} {}", vec![part; times].join(" "))
}

#[cfg(test)]
mod tests {
    use super::*;
    use crate::call::FUNCTIONS;
    use crate::engine::refusal_in;
    use crate::refusal::LAST_REFUSAL;

    #[test]
    fn every_refusal_number_is_written() {
        let mut seen = [[false; LAST_REFUSAL + 1]; FUNCTIONS.len()];
        for written in all() {
            let refusal = refusal_in(written.expected.answer);
            seen[written.call.kind()][usize::from(refusal)] = true;
        }
        for number in 0..=LAST_REFUSAL {
            assert!(seen.iter().any(|function| function[number]), "{number}");
        }
        // Those that take a reading.
        for kind in [0, 1, 2, 3, 9, 10, 12, 13, 15, 16, 17, 18, 19, 21] {
            assert!(seen[kind][22]);
        }
        // Those a half or a run can give beside the nine of a file.
        for kind in [1, 2, 3, 9, 10, 12, 13, 15, 16] {
            assert!([10, 15, 16, 17]
                .iter()
                .all(|&number: &usize| seen[kind][number]));
        }
    }
}
