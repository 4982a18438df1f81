//! A station with a meter, spoilt.

use super::{Fault, Spoilt};
use crate::basis::Basis;
use crate::engine::{found_in, refusal_in, Engine, Model};
use crate::meter::{Lent, STATION_LENGTH, TOTALS};
use crate::moment::STATE_LENGTH;
use crate::parse;

pub fn meter_new(spoilt: &Spoilt, station: &mut [u16], totals: &mut [u32], register: u16) -> u64 {
    let register = match spoilt.has(Fault::FirstRegisterIsNone) {
        true => 0,
        false => register,
    };
    if spoilt.has(Fault::LongerStationRefused) && STATION_LENGTH < station.len() {
        return 14;
    }
    let answer = Model.meter_new(station, totals, register);
    if spoilt.has(Fault::NumbersPastTheTotalsCleared) && answer == 0 {
        totals.fill(0);
    }
    answer
}

pub fn meter_input(spoilt: &Spoilt, basis: Basis, station: &[u16], register: u16, x: u8) -> u64 {
    let answer = Model.meter_input(basis, station, register, x);
    if spoilt.has(Fault::MarksBeforeMeterSignals) && answer == 26 {
        let policy = parse::check(basis.file).expect("it was read");
        if (basis.marks.len() as u64) < policy.states() {
            return 10;
        }
    }
    let quiet = station.get(STATE_LENGTH) == Some(&register);
    if spoilt.has(Fault::PulseIsNotCleared) && refusal_in(answer) == 0 && quiet {
        return Model.input(basis, &station[..STATE_LENGTH], x);
    }
    answer
}

pub fn meter_output(spoilt: &Spoilt, basis: Basis, lent: Lent, register: u16, x: u8, y: u8) -> u64 {
    let (station, totals) = lent;
    let last = station.get(STATE_LENGTH).copied().unwrap_or(0);
    let before = totals.to_vec();
    let mut answer = Model.meter_output(basis, (station, totals), register, x, y);
    if spoilt.has(Fault::TotalsGoRound) && answer == 27 {
        let mut none = [0; TOTALS];
        answer = Model.meter_output(basis, (station, &mut none), register, x, y);
        for (total, pulses) in totals.iter_mut().zip(none) {
            *total = total.wrapping_add(pulses);
        }
    }
    if spoilt.has(Fault::ShortStationIsNoState) && answer == 14 && station.len() < STATION_LENGTH {
        return 16;
    }
    if refusal_in(answer) != 0 {
        if spoilt.has(Fault::RegisterMovesOnRefusal) && answer == 17 {
            station[STATE_LENGTH] = register;
        }
        return answer;
    }
    if spoilt.has(Fault::PulsesEndAtTheRollover) && register < last {
        totals.copy_from_slice(&before);
    }
    if spoilt.has(Fault::BillsWhatWasWanted) && found_in(answer) != usize::from(y) {
        totals.swap(0, 1);
    }
    answer
}
