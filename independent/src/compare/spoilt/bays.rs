//! Lists of bays, spoilt.

use super::{Fault, Spoilt};
use crate::basis::Basis;
use crate::enforce;
use crate::engine::{refusal_in, Engine, Model};
use crate::moment::STATE_LENGTH;

pub fn bays_new(spoilt: &Spoilt, states: &mut [u16]) -> u64 {
    if spoilt.has(Fault::NineBays) && states.len() == 45 {
        states.fill(0);
        return 0;
    }
    let before = states.to_vec();
    let answer = Model.bays_new(states);
    if spoilt.has(Fault::BaysKeepTheirStates) {
        states.copy_from_slice(&before);
    }
    answer
}

pub fn bay_input(spoilt: &Spoilt, basis: Basis, states: &[u16], bay: u32, x: u8) -> u64 {
    let bays = (states.len() / STATE_LENGTH) as u32;
    let early = spoilt.has(Fault::BayBeforeMarks) && bay >= bays;
    if early && enforce::read(basis).is_ok() {
        return 24;
    }
    let bay = match spoilt.fault {
        Fault::BayCutToOneByte => bay & 255,
        Fault::BayIsTheCount if bay == bays && bays > 0 => bay - 1,
        _ => bay,
    };
    Model.bay_input(basis, states, bay, x)
}

pub fn bay_output(
    spoilt: &Spoilt,
    basis: Basis,
    states: &mut [u16],
    bay: u32,
    x: u8,
    y: u8,
) -> u64 {
    let answer = Model.bay_output(basis, states, bay, x, y);
    if spoilt.has(Fault::AllBaysMove) && refusal_in(answer) == 0 {
        let own = bay as usize * STATE_LENGTH;
        let state = states[own..own + STATE_LENGTH].to_vec();
        states
            .chunks_mut(STATE_LENGTH)
            .for_each(|other| other.copy_from_slice(&state));
    }
    answer
}
