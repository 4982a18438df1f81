//! What has been compared, in numbers.

use crate::bays::BayTally;
use crate::call::{Call, FUNCTIONS};
use crate::engine::{found_in, refusal_in};
use crate::laws::LawTally;
use crate::meter::transfers::MeterTally;
use crate::reading::READINGS;
use std::collections::BTreeMap;
use std::fmt;

/// What has been compared so far.
#[derive(Default)]
pub struct Tally {
    pub groups: u64,
    pub calls: u64,
    /// How often each function gave each refusal, 0 for none.
    pub answers: BTreeMap<(usize, u8), u64>,
    /// Events that successful runs released otherwise than they were given.
    pub edited: u64,
    pub forwarded: u64,
    /// Calls under reading 1 and 2.
    pub readings: [u64; READINGS.len()],
    /// Tables with verdict 0 and 1.
    pub verdicts: [u64; 2],
    pub laws: LawTally,
    pub bays: BayTally,
    pub meter: MeterTally,
    /// Reasons for inputs and for outputs, by kind.
    pub reasons: [[u64; 5]; 2],
}

impl Tally {
    pub fn count(&mut self, call: &Call, answer: u64, bytes: &[u8]) {
        let refusal = refusal_in(answer);
        self.calls += 1;
        *self.answers.entry((call.kind(), refusal)).or_default() += 1;
        for (reading, calls) in READINGS.iter().zip(&mut self.readings) {
            *calls += u64::from(call.reading() == Some(reading.number()));
        }
        match call {
            Call::Run { events, .. } => {
                let released = events.iter().zip(bytes).take(found_in(answer));
                let (same, other): (Vec<_>, Vec<_>) = released.partition(|(a, b)| a == b);
                self.forwarded += same.len() as u64;
                self.edited += other.len() as u64;
            }
            Call::Prepare { .. } | Call::PrepareFast { .. } if refusal == 0 => {
                self.verdicts[usize::from((answer >> 8) as u8 & 1)] += 1;
            }
            Call::Why { .. } if refusal == 0 => {
                self.reasons[0][usize::from((answer >> 8) as u8)] += 1;
                self.reasons[1][usize::from((answer >> 32) as u8)] += 1;
            }
            _ => {}
        }
    }
}

impl Tally {
    /// How many texts of policies have been read.
    pub fn texts(&self) -> u64 {
        let read = FUNCTIONS.iter().position(|&name| name == "text_read");
        let of_reader = |((kind, _), count): (&(usize, u8), &u64)| match Some(*kind) == read {
            true => *count,
            false => 0,
        };
        self.answers.iter().map(of_reader).sum()
    }

    /// What the functions that were called gave.
    pub fn answers(&self) -> String {
        let mut lines = "answers as refusal:count, 0 for none\n".to_string();
        for (kind, name) in FUNCTIONS.iter().enumerate() {
            let given = self.answers.range((kind, 0)..(kind + 1, 0));
            let words: Vec<String> = given
                .map(|((_, refusal), count)| format!("{refusal}:{count}"))
                .collect();
            if !words.is_empty() {
                lines += &format!("  {name} {}\n", words.join(" "));
            }
        }
        lines
    }
}

impl fmt::Display for Tally {
    fn fmt(&self, out: &mut fmt::Formatter) -> fmt::Result {
        writeln!(out, "groups {} calls {}", self.groups, self.calls)?;
        write!(out, "{}", self.answers())?;
        writeln!(
            out,
            "under reading 1: {}, under reading 2: {}",
            self.readings[0], self.readings[1]
        )?;
        writeln!(
            out,
            "verdict 0: {}, verdict 1: {}",
            self.verdicts[0], self.verdicts[1]
        )?;
        writeln!(
            out,
            "events forwarded {}, edited {}",
            self.forwarded, self.edited
        )?;
        writeln!(
            out,
            "reasons as not edited, rule, no rule, ticks, rests: for inputs {:?}, for outputs {:?}",
            self.reasons[0], self.reasons[1]
        )?;
        writeln!(
            out,
            "laws as tried under reading 1, then 2: hopeless, all may rest, some must be left"
        )?;
        for count in &self.laws.laws {
            let words = count.tried.map(|tried| {
                let (hopeless, resting, leaving) = (tried.hopeless, tried.resting, tried.leaving);
                format!("{hopeless} {resting} {leaving}")
            });
            writeln!(out, "  {} {}", count.law, words.join(", "))?;
        }
        writeln!(
            out,
            "lists of bays {}, their ticks {}, refused {}, edited {}",
            self.bays.stations, self.bays.ticks, self.bays.refused, self.bays.edited
        )?;
        writeln!(
            out,
            "transfers {}, their ticks {}, refused {}, over the end of the register {}, pulses billed {}, unbilled {}",
            self.meter.transfers,
            self.meter.ticks,
            self.meter.refused,
            self.meter.rollovers,
            self.meter.billed,
            self.meter.unbilled
        )?;
        Ok(())
    }
}
