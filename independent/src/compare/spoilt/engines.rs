//! The check and both engines that prepare, spoilt.

use super::{Fault, Spoilt};
use crate::call::Work;
use crate::engine::{refusal_in, Engine, Model};
use crate::parse;
use crate::policy::Policy;
use crate::reading::Reading;

pub fn check(spoilt: &Spoilt, file: &[u8]) -> u64 {
    match parse::check(file) {
        Ok(policy) if spoilt.has(Fault::StatesOfOneLocation) => {
            policy.states() / (policy.locations() as u64) << 8
        }
        _ => Model.check(file),
    }
}

pub fn prepare(spoilt: &Spoilt, reading: u8, file: &[u8], marks: &mut [u8]) -> u64 {
    if spoilt.has(Fault::RefuseAlways) {
        return 11;
    }
    let named = Reading::named(reading);
    let leaves = |policy: Policy| policy.must_leave.contains(&true);
    let leaves = named.is_ok() && parse::check(file).is_ok_and(leaves);
    if spoilt.has(Fault::LocationOneIsRefused) && leaves {
        return 5;
    }
    let before = marks.to_vec();
    let reading = match named {
        Ok(named) if spoilt.has(Fault::MarksOfTheOtherReading) => named.other().number(),
        _ => spoilt.reading(reading, file),
    };
    let answer = Model.prepare(reading, &spoilt.file(reading, file), marks);
    let states = (answer >> 16 & 0xFF_FFFF) as usize;
    if spoilt.has(Fault::MarkPastTheStates) && answer as u8 == 0 && states < marks.len() {
        marks[states] = 0;
    }
    if spoilt.has(Fault::WriteMarksOnlyOnSuccess) && answer as u8 == 11 {
        marks.copy_from_slice(&before);
    }
    if spoilt.has(Fault::EveryStateCounts) && answer as u8 == 0 {
        let all_live = (answer >> 40) as usize == states;
        return answer & !0xFF00 | u64::from(!all_live) << 8;
    }
    match spoilt.has(Fault::InventLiveCount) && answer as u8 == 0 {
        true => answer & 0xFF_FFFF_FFFF | 1 << 40,
        false => answer,
    }
}

pub fn prepare_fast(
    spoilt: &Spoilt,
    reading: u8,
    file: &[u8],
    marks: &mut [u8],
    work: &mut Work,
) -> u64 {
    let answer = Model.prepare_fast(reading, file, marks, work);
    let first_short = work[..4].iter().any(|slice| slice.len() < marks.len());
    match spoilt.fault {
        Fault::FourWorkSlices if answer == 23 && !first_short => {
            Model.prepare(reading, file, marks)
        }
        Fault::StartBeforeWork if answer == 23 => {
            let mut scratch = marks.to_vec();
            match Model.prepare(reading, file, &mut scratch) {
                11 => 11,
                _ => 23,
            }
        }
        Fault::WorkBeforeMarks if answer == 10 && work[0].is_empty() => 23,
        Fault::FastForgetsRest if refusal_in(answer) == 0 => {
            let mut policy = parse::check(file).expect("it was read");
            policy.must_leave.fill(false);
            Model.prepare(reading, &policy.encode(), marks)
        }
        Fault::FastReadsTheWork if refusal_in(answer) == 0 && work[2][0] != 0xEEEE => {
            marks[0] ^= 1;
            answer
        }
        _ => answer,
    }
}
