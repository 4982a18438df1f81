//! What the programs print of an input that is not refused.

use super::words::lines_of;
use crate::basis::Basis;
use crate::enforce::{self, Prepared};
use crate::moment::STATE_LENGTH;
use crate::parse;
use crate::policy::MAX_STATES;
use crate::reading::Reading;
use crate::refusal::Refusal;
use crate::waves::{self, MOST_EVENTS};
use crate::why::{self, Reason};
use std::collections::HashMap;
use std::fmt::Write as _;

pub const LONGEST_POLICY: usize = 5_974;

/// An input that is not refused, and what is released for it.
pub struct Ran<'a> {
    reading: Reading,
    file: &'a [u8],
    marks: Vec<u8>,
    prepared: Prepared,
    events: &'a [u8],
    released: Vec<u8>,
}

impl Ran<'_> {
    pub fn of(reading: Reading, input: &[u8]) -> Result<Ran<'_>, Refusal> {
        let (file, rest) = counted(input, LONGEST_POLICY)?;
        let mut marks = vec![0; MAX_STATES as usize];
        let prepared = enforce::prepare(reading.number(), file, &mut marks)?;
        let (events, rest) = counted(rest, MOST_EVENTS)?;
        if !rest.is_empty() {
            return Err(Refusal::LeftOver);
        }
        let mut released = vec![0; events.len()];
        let mut state = [0; STATE_LENGTH];
        let basis = Basis::new(reading.number(), file, &marks);
        let end = enforce::run(basis, &mut state, events, &mut released);
        match end.refusal {
            Some(refusal) => Err(refusal),
            None => Ok(Ran {
                reading,
                file,
                marks,
                prepared,
                events,
                released,
            }),
        }
    }

    fn basis(&self) -> Basis<'_> {
        Basis::new(self.reading.number(), self.file, &self.marks)
    }

    pub fn lines(&self) -> String {
        let prepared = &self.prepared;
        let mut lines = format!(
            "verdict {} states {} live {}\n",
            prepared.verdict, prepared.states, prepared.live
        );
        for (place, (&event, &out)) in self.events.iter().zip(&self.released).enumerate() {
            let letter = |same| if same { 'F' } else { 'E' };
            let (x, y) = (event % 16, event / 16);
            let (x_out, y_out) = (out % 16, out / 16);
            let (input, output) = (letter(x == x_out), letter(y == y_out));
            writeln!(
                lines,
                "{} {x} {y} {x_out} {y_out} {input}{output}",
                place + 1
            )
            .expect("a string takes all");
        }
        lines
    }

    pub fn told(&self) -> String {
        let policy = parse::check(self.file).expect("it was prepared");
        let lines = self.lines();
        let mut lines = lines.lines();
        let mut text = format!("{}\n", lines.next().expect("the verdict comes first"));
        let mut state = [0; STATE_LENGTH];
        // Streams go in circles: a reason is worked out once.
        let mut known = HashMap::new();
        for ((&event, &out), line) in self.events.iter().zip(&self.released).zip(lines) {
            writeln!(text, "{line}").expect("a string takes all");
            if event != out {
                let reasons = known
                    .entry((state, event))
                    .or_insert_with(|| self.reasons(&state, event));
                for line in lines_of(&policy, *reasons) {
                    writeln!(text, "{line}").expect("a string takes all");
                }
            }
            // What is released is kept as it is, and moves the state.
            enforce::output_half(self.basis(), &mut state, out % 16, out / 16)
                .expect("it was released");
        }
        text
    }

    fn reasons(&self, state: &[u16], event: u8) -> [Reason; 2] {
        why::why(self.basis(), state, event % 16, event / 16).expect("a run goes on from it")
    }

    pub fn wave(&self) -> String {
        let policy = parse::check(self.file).expect("it was prepared");
        waves::text_of(&policy, &self.released)
    }
}

/// The bytes after their two-byte count, and the rest.
fn counted(input: &[u8], most: usize) -> Result<(&[u8], &[u8]), Refusal> {
    let (count, rest) = input.split_at_checked(2).ok_or(Refusal::CutShort)?;
    let count = usize::from(count[0]) * 256 + usize::from(count[1]);
    if count > most {
        return Err(Refusal::CountOutsideLimits);
    }
    rest.split_at_checked(count).ok_or(Refusal::CutShort)
}
