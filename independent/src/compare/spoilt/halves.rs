//! The halves and the run, spoilt.

use super::{Fault, Spoilt};
use crate::basis::Basis;
use crate::engine::{refusal_in, Engine, Model};
use crate::moment::STATE_LENGTH;
use crate::parse;
use crate::reading::Reading;

pub fn input(spoilt: &Spoilt, basis: Basis, state: &[u16], x: u8) -> u64 {
    let (basis, state) = (spoilt.seen(basis), seen_state(spoilt, state));
    let half = |x| Model.input(basis.lent(), &state, x);
    let answer = half(x);
    match spoilt.has(Fault::SmallestAmongEquals) && refusal_in(answer) == 0 {
        true => smallest_nearest(x, half),
        false => answer,
    }
}

fn seen_state(spoilt: &Spoilt, state: &[u16]) -> Vec<u16> {
    let mut state = state.to_vec();
    if spoilt.has(Fault::WideLocationCut) && !state.is_empty() {
        state[0] &= 255;
    }
    state
}

/// The answer with the smallest of the nearest values that stand: those
/// that `half` gives back unchanged.
fn smallest_nearest(wanted: u8, half: impl Fn(u8) -> u64) -> u64 {
    let stands = |&value: &u8| half(value) == u64::from(value) << 8;
    let nearest = (0..16).filter(stands);
    let distance = |value: &u8| (value ^ wanted).count_ones();
    let smallest = nearest.min_by_key(distance).expect("one was found");
    u64::from(smallest) << 8
}

pub fn output(spoilt: &Spoilt, basis: Basis, state: &mut [u16], x: u8, y: u8) -> u64 {
    let basis = spoilt.seen(basis);
    let answer = Model.output(basis.lent(), state, x, y);
    let counts_on = spoilt.has(Fault::ClockGoesOnFromWhatWasRead) && basis.reading == 2;
    if counts_on && refusal_in(answer) == 0 {
        let policy = parse::check(&basis.file).expect("it was read");
        for (clock, &ceiling) in state[1..].iter_mut().zip(&policy.ceilings) {
            *clock += u16::from(0 < *clock && *clock < ceiling);
        }
    }
    if spoilt.has(Fault::StateMovesOnRefusal) && answer == 17 {
        state[0] = 0;
        state[STATE_LENGTH - 1] = 0;
        state[1] = state[1].wrapping_add(1);
    }
    answer
}

pub fn run(
    spoilt: &Spoilt,
    basis: Basis,
    state: &mut [u16],
    events: &[u8],
    released: &mut [u8],
) -> u64 {
    if spoilt.has(Fault::EventsCheckedBeforeState) {
        let wrong = parse::check(basis.file)
            .is_ok_and(|policy| events.iter().any(|event| event & !policy.event_mask() != 0));
        if wrong && Reading::named(basis.reading).is_ok() {
            return 15;
        }
    }
    let answer = Model.run(spoilt.seen(basis).lent(), state, events, released);
    if spoilt.has(Fault::ForwardEverything) && answer as u8 == 0 {
        released[..events.len()].copy_from_slice(events);
    }
    if spoilt.has(Fault::ReleasePastTheEvents) && released.len() > events.len() {
        released[events.len()] = 0;
    }
    answer
}
