//! Cleaning, spoilt.

use super::{Fault, Spoilt};
use crate::engine::{refusal_in, Engine, Model};
use crate::parse;

pub fn clean(
    spoilt: &Spoilt,
    reading: u8,
    file: &[u8],
    cleaned: &mut [u8],
    struck: &mut [u8],
) -> u64 {
    let reading = match reading {
        2 if spoilt.has(Fault::CleanUnderReadingOne) => 1,
        _ => reading,
    };
    let answer = Model.clean(reading, file, cleaned, struck);
    let room = (cleaned.len(), struck.len());
    let (length, listed) = ((answer >> 8 & 0xFF_FFFF) as usize, (answer >> 32) as usize);
    match spoilt.fault {
        Fault::CleanWritesTheFileFirst if answer == 14 => {
            let mut list = vec![0; 1_000];
            Model.clean(reading, file, cleaned, &mut list);
            14
        }
        Fault::TargetsKeepTheirNumbers if refusal_in(answer) == 0 => {
            let old = parse::check(file).expect("it was read");
            let mut policy = parse::check(&cleaned[..length]).expect("it was cleaned");
            for rule in &mut policy.rules {
                let old = old.rules.iter().find(|old| old.input == rule.input);
                rule.target = old.map_or(0, |old| old.target);
            }
            let bytes = policy.encode();
            cleaned[..bytes.len().min(room.0)].copy_from_slice(&bytes);
            answer
        }
        Fault::RulesOfTwoAreThree if refusal_in(answer) == 0 => {
            for entry in struck[..listed].chunks_mut(3) {
                entry[0] = if entry[0] == 2 { 3 } else { entry[0] };
            }
            answer
        }
        Fault::EveryRuleOfALocationStays if refusal_in(answer) == 0 => {
            let mut entries = struck[..listed].chunks(3);
            match entries.any(|entry| entry[0] == 3) {
                true => 14,
                false => answer,
            }
        }
        _ => answer,
    }
}
