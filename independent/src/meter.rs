//! The meter on top of a station: pulses, the input P, and two totals.

pub mod transfers;

use crate::basis::Basis;
use crate::enforce;
use crate::moment::STATE_LENGTH;
use crate::policy::Policy;
use crate::random::Random;
use crate::refusal::Refusal;

/// What of a station as it is lent is looked at and written: the state, then the
/// last accepted register. More numbers may follow, and stay.
pub const STATION_LENGTH: usize = STATE_LENGTH + 1;
/// How many totals there are: billed, unbilled. More numbers may follow.
pub const TOTALS: usize = 2;

/// What a tick may change: the station and the totals.
pub type Lent<'a> = (&'a mut [u16], &'a mut [u32]);

/// "The first reading is given when the totals are set up, both at 0."
pub fn new(station: &mut [u16], totals: &mut [u32], register: u16) -> Result<(), Refusal> {
    check_room(station, totals)?;
    station[..STATE_LENGTH].fill(0);
    station[STATE_LENGTH] = register;
    totals[..TOTALS].fill(0);
    Ok(())
}

/// "the slice to be written is too short"
fn check_room(station: &[u16], totals: &[u32]) -> Result<(), Refusal> {
    match station.len() < STATION_LENGTH || totals.len() < TOTALS {
        true => Err(Refusal::SliceTooShort),
        false => Ok(()),
    }
}

/// The bits of the input P and of the output D.
struct Wires {
    pulse: u8,
    delivery: u8,
}

/// 22, 1 to 9, 26 and 10: what comes before the station is looked at.
fn wires(basis: Basis) -> Result<Wires, Refusal> {
    let (_, policy) = enforce::read(basis)?;
    let wires = wires_of(&policy).ok_or(Refusal::NoMeterSignals)?;
    enforce::check_mark_slice(&policy, basis.marks)?;
    Ok(wires)
}

fn wires_of(policy: &Policy) -> Option<Wires> {
    let bit = |tags: &[u8], tag: u8| {
        let place = tags.iter().position(|&other| other == tag)?;
        Some(1 << place)
    };
    Some(Wires {
        pulse: bit(&policy.inputs, b'P')?,
        delivery: bit(&policy.outputs, b'D')?,
    })
}

/// "this reading less the last, modulo 65,536", counted on a longer register.
fn pulses(last: u16, register: u16) -> u32 {
    let (last, register) = (u32::from(last), u32::from(register));
    match register < last {
        true => register + 65_536 - last,
        false => register - last,
    }
}

/// "Input tag P is set, before the input half, exactly when pulses is not 0."
pub fn input_half(basis: Basis, station: &[u16], register: u16, x: u8) -> Result<u8, Refusal> {
    let wires = wires(basis)?;
    let (state, last) = parted(station)?;
    let x = match pulses(last, register) {
        0 => x & !wires.pulse,
        _ => x | wires.pulse,
    };
    enforce::input_half(basis, state, x)
}

/// The state and the last register; a station of fewer than six numbers has no
/// state.
fn parted(station: &[u16]) -> Result<(&[u16], u16), Refusal> {
    let last = *station.get(STATE_LENGTH).ok_or(Refusal::BadState)?;
    Ok((&station[..STATE_LENGTH], last))
}

/// "The billed total rises by the pulses whenever the released output with tag
/// D is on; the others go into an unbilled total." A refusal changes nothing.
pub fn output_half(
    basis: Basis,
    (station, totals): Lent,
    register: u16,
    x: u8,
    y: u8,
) -> Result<u8, Refusal> {
    let wires = wires(basis)?;
    check_room(station, totals)?;
    let (state, last) = parted(station)?;
    let mut next = state.to_vec();
    let released = enforce::output_half(basis, &mut next, x, y)?;
    let total = &mut totals[usize::from(released & wires.delivery == 0)];
    let risen = u64::from(*total) + u64::from(pulses(last, register));
    *total = u32::try_from(risen).map_err(|_| Refusal::TotalTooLarge)?;
    next.push(register);
    station[..STATION_LENGTH].copy_from_slice(&next);
    Ok(released)
}

/// The same policy with its signals named anew, so that an input is P and an
/// output is D; nothing if it has no input or no output.
pub fn metered(random: &mut Random, mut policy: Policy) -> Option<Policy> {
    let mut letters: Vec<u8> = (b'A'..=b'Z').filter(|tag| !b"PD".contains(tag)).collect();
    random.shuffle(&mut letters);
    for (tag, letter) in policy
        .inputs
        .iter_mut()
        .chain(&mut policy.outputs)
        .zip(letters)
    {
        *tag = letter;
    }
    for (tags, tag) in [(&mut policy.inputs, b'P'), (&mut policy.outputs, b'D')] {
        let place = random.below(tags.len().max(1) as u64) as usize;
        *tags.get_mut(place)? = tag;
    }
    Some(policy)
}

#[cfg(test)]
mod tests {
    use super::*;

    #[test]
    fn pulses_go_round() {
        assert_eq!(pulses(65_530, 4), 10);
        assert_eq!(pulses(4, 65_530), 65_526);
        assert_eq!(pulses(7, 7), 0);
        assert_eq!(pulses(0, 65_535), 65_535);
        assert_eq!(pulses(65_535, 0), 1);
        for (last, register) in [(0, 1), (900, 12), (65_535, 65_534), (1, 0)] {
            let wrapped: u16 = (register as u16).wrapping_sub(last as u16);
            assert_eq!(pulses(last as u16, register as u16), u32::from(wrapped));
        }
    }
}
