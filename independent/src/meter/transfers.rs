//! Transfers over a station with a meter, and what their totals must be.

use super::{metered, wires_of, STATION_LENGTH, TOTALS};
use crate::basis::Basis;
use crate::bays::passed;
use crate::engine::{found_in, refusal_in, Engine};
use crate::hex::hex;
use crate::moment::STATE_LENGTH;
use crate::policies::{self, Size};
use crate::policy::Policy;
use crate::random::Random;
use crate::reading::READINGS;
use crate::subject::{some_value, Subject};

/// A policy with a meter and a live start, and what its sensors, its meter and
/// its controller do.
pub struct Transfer {
    reading: u8,
    policy: Policy,
    marks: Vec<u8>,
    first: u16,
    ticks: Vec<Wanted>,
}

#[derive(Clone, Copy, Debug)]
struct Wanted {
    /// How far the register goes on before the tick.
    advance: u16,
    x: u8,
    y: u8,
}

/// What has been tried.
#[derive(Clone, Copy, Debug, Default)]
pub struct MeterTally {
    pub transfers: usize,
    pub ticks: usize,
    pub refused: usize,
    pub rollovers: usize,
    pub billed: u64,
    pub unbilled: u64,
}

pub fn transfer(seed: u64, number: u64) -> Transfer {
    let mut random = Random::for_group(seed ^ 0x3C3C_3C3C, number);
    let reading = random.pick(&READINGS);
    let subject = loop {
        let policy = policies::of_size(&mut random, Size::Tiny);
        let Some(policy) = metered(&mut random, policy) else {
            continue;
        };
        let subject = Subject::new(policy, reading);
        if subject.liveness.live[0] {
            break subject;
        }
    };
    let anywhere = random.next() as u16;
    let first = random.pick(&[0, 65_530, anywhere]);
    let mut ticks = Vec::new();
    for _ in 0..random.between(0, 40) {
        let advance = match random.below(6) {
            0..=1 => 0,
            2..=3 => random.between(1, 12) as u16,
            _ => random.between(1, 9_000) as u16,
        };
        ticks.push(Wanted {
            advance,
            x: some_value(&mut random, subject.policy.input_mask()),
            y: some_value(&mut random, subject.policy.output_mask()),
        });
    }
    Transfer {
        reading: reading.number(),
        marks: subject.liveness.marks(),
        policy: subject.policy,
        first,
        ticks,
    }
}

impl Transfer {
    pub fn describe(&self) -> String {
        format!(
            "reading {}\nfile {}\nmarks {}\nfirst {}\nticks {:?}",
            self.reading,
            hex(&self.policy.encode()),
            hex(&self.marks),
            self.first,
            self.ticks
        )
    }
}

/// "The two totals together equal the advance of a register that never rolls
/// over, from the first reading to the last accepted one". "A refused tick
/// changes no total, last reading or state." And the station is where the
/// plain halves would have brought it.
pub fn examine(
    engine: &mut dyn Engine,
    transfer: &Transfer,
    tally: &mut MeterTally,
) -> Result<(), String> {
    let file = transfer.policy.encode();
    let basis = Basis::new(transfer.reading, &file, &transfer.marks);
    let wires = wires_of(&transfer.policy).expect("it has both");
    let (mut station, mut totals) = (vec![0xEEEE; STATION_LENGTH], vec![7; TOTALS]);
    if engine.meter_new(&mut station, &mut totals, transfer.first) != 0 {
        return Err("the totals are not set up".to_string());
    }
    let mut plain = vec![0; STATE_LENGTH];
    // The register that never rolls over, now and when it was last accepted.
    let first = u64::from(transfer.first);
    let (mut counted, mut accepted) = (first, first);
    let mut billed = 0;
    for wanted in &transfer.ticks {
        // No more than 65,535 pulses between two accepted readings.
        if counted + u64::from(wanted.advance) - accepted <= 65_535 {
            counted += u64::from(wanted.advance);
        }
        let register = (counted % 65_536) as u16;
        let before = (station.clone(), totals.clone());
        let seen = match counted == accepted {
            true => wanted.x & !wires.pulse,
            false => wanted.x | wires.pulse,
        };
        let input = engine.meter_input(basis, &station, register, wanted.x);
        if input != engine.input(basis, &plain, seen) {
            return Err(format!("P: {wanted:?} answers {input:#x}"));
        }
        let x = passed(input, wanted.x);
        let lent = (&mut station[..], &mut totals[..]);
        let output = engine.meter_output(basis, lent, register, x, wanted.y);
        if output != engine.output(basis, &mut plain, x, wanted.y) {
            return Err(format!("output: {wanted:?} answers {output:#x}"));
        }
        tally.ticks += 1;
        if refusal_in(output) != 0 {
            tally.refused += 1;
            if (station.clone(), totals.clone()) != before {
                return Err("a refused tick changes something".to_string());
            }
            continue;
        }
        if found_in(output) as u8 & wires.delivery != 0 {
            billed += counted - accepted;
        }
        tally.rollovers += usize::from(counted / 65_536 != accepted / 65_536);
        accepted = counted;
        let expected = [billed, accepted - first - billed];
        if totals.iter().map(|&total| u64::from(total)).ne(expected) {
            return Err(format!("totals {totals:?}, and not {expected:?}"));
        }
        if station[..STATE_LENGTH] != plain || station[STATE_LENGTH] != register {
            return Err(format!(
                "station {station:?}, and not {plain:?}, {register}"
            ));
        }
    }
    tally.transfers += 1;
    tally.billed += billed;
    tally.unbilled += accepted - first - billed;
    engine.kept_to_what_was_lent()
}

#[cfg(test)]
mod tests {
    use super::*;
    use crate::engine::Model;

    #[test]
    fn the_model_counts_every_pulse_once() {
        let mut tally = MeterTally::default();
        for number in 0..600 {
            let transfer = transfer(12, number);
            if let Err(breach) = examine(&mut Model, &transfer, &mut tally) {
                panic!("{breach}\n{}", transfer.describe());
            }
        }
        let enough = tally.ticks > 5_000 && tally.refused > 300 && tally.rollovers > 100;
        assert!(enough, "{tally:?}");
        assert!(
            tally.billed > 100_000 && tally.unbilled > 100_000,
            "{tally:?}"
        );
    }
}
