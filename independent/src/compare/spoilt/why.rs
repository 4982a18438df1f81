//! Reasons for edits, spoilt.

use super::{Fault, Spoilt};
use crate::basis::Basis;
use crate::engine::{refusal_in, Engine, Model};
use crate::index;
use crate::parse;
use crate::why::Told;

pub fn why(spoilt: &Spoilt, basis: Basis, state: &[u16], x: u8, y: u8) -> u64 {
    let answer = Model.why(basis, state, x, y);
    let (input, output) = (answer >> 8 & 0xFF, answer >> 32 & 0xFF);
    if refusal_in(answer) != 0 {
        return match spoilt.fault {
            Fault::MarksAreNotChecked if answer == 20 => 0,
            Fault::MarksBeforeState if answer == 16 && basis.marks.contains(&2) => 20,
            _ => answer,
        };
    }
    match spoilt.fault {
        Fault::OneTickMore if output == 3 => answer + (1 << 40),
        Fault::RestsAsTicks if input == 4 => answer - (1 << 8),
        Fault::RuleNumberInItsLocation if output == 1 => {
            let policy = parse::check(basis.file).expect("it was read");
            let first = index::index_of(&policy)[2 * usize::from(state[0])];
            answer - (u64::from(first) << 40)
        }
        Fault::LowestOutputOnly if input == 3 => {
            // As if the counts of all other outputs were not there.
            let number = answer >> 16 & 0xFFFF;
            answer & !0xFFFF_0000 | number.saturating_sub(1) << 16
        }
        Fault::OutputJudgedWithXAsRead if input != 0 => {
            answer & 0xFFFF_FFFF | input << 32 | (answer >> 16 & 0xFFFF) << 40
        }
        Fault::ReasonForWhatIsNotEdited if output == 0 => answer | 2 << 32,
        _ => answer,
    }
}

pub fn why_run(spoilt: &Spoilt, basis: Basis, state: &mut [u16], events: &[u8], told: Told) -> u64 {
    let before = state.to_vec();
    let mut reasons = told.reasons.to_vec();
    let lent = Told {
        reasons: &mut reasons,
        ticks: told.ticks,
        rests: told.rests,
        prepared: told.prepared,
        work: told.work,
    };
    let answer = Model.why_run(basis, state, events, lent);
    let one = |event: &u8| Model.why(basis, &before, event & 15, event >> 4);
    match spoilt.fault {
        Fault::StateIsNotCarriedOn if refusal_in(answer) == 0 => {
            let places = reasons.iter_mut().zip(events);
            places.for_each(|(place, event)| *place = one(event));
        }
        Fault::ReasonsPastTheEvents if refusal_in(answer) == 0 => {
            reasons[events.len()..].fill(0);
        }
        _ => {}
    }
    told.reasons.copy_from_slice(&reasons);
    match (spoilt.fault, answer) {
        (Fault::StateBeforeRoom, 23) if one(&0) == 16 => 16,
        (Fault::EventsBeforeMarks, 20) => {
            let mask = parse::check(basis.file).expect("it was read").event_mask();
            match events.iter().any(|event| event & !mask != 0) {
                true => 15,
                false => 20,
            }
        }
        _ => answer,
    }
}
