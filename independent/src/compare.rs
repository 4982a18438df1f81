//! Sets an engine against the model, call by call and law by law.

#[cfg(test)]
mod spoilt;
mod tally;

use crate::bays;
use crate::call::Call;
use crate::cases;
use crate::engine::{Engine, Model};
use crate::laws::{self, LawTally};
use crate::meter::transfers;
pub use tally::Tally;

/// One case of the laws is tried for so many groups of calls.
const GROUPS_FOR_A_LAW_CASE: u64 = 4;

/// Compares group after group while `goes_on` says so of the number of the
/// next, or until something differs; the error is the first difference in
/// words. With `trace`, each call is named before it is made, for a library
/// that does not return.
pub fn compare(
    engine: &mut dyn Engine,
    seed: u64,
    goes_on: impl Fn(u64) -> bool,
    trace: bool,
    tally: &mut Tally,
) -> Result<(), String> {
    while goes_on(tally.groups) {
        let number = tally.groups;
        compare_calls(engine, &cases::group(seed, number), tally, |place| {
            announced(trace, format!("seed {seed} group {number} call {place}"))
        })?;
        compare_texts(engine, seed, number, trace, tally)?;
        if number.is_multiple_of(GROUPS_FOR_A_LAW_CASE) {
            if trace {
                eprintln!("laws {number}");
            }
            let told = |what, breach| format!("seed {seed} {what} {number}\n{breach}");
            compare_laws(engine, seed, number, &mut tally.laws)
                .map_err(|difference| told("laws", difference))?;
            let station = bays::station(seed, number);
            bays::examine(engine, &station, &mut tally.bays)
                .map_err(|breach| told("bays", format!("{breach}\n{}", station.describe())))?;
            let transfer = transfers::transfer(seed, number);
            transfers::examine(engine, &transfer, &mut tally.meter)
                .map_err(|breach| told("meter", format!("{breach}\n{}", transfer.describe())))?;
        }
        tally.groups += 1;
    }
    Ok(())
}

/// The texts `number`.
pub fn compare_texts(
    engine: &mut dyn Engine,
    seed: u64,
    number: u64,
    trace: bool,
    tally: &mut Tally,
) -> Result<(), String> {
    compare_calls(engine, &cases::texts(seed, number), tally, |place| {
        announced(trace, format!("seed {seed} texts {number} call {place}"))
    })
}

/// `named` says which call it is, at this place in the list.
fn compare_calls(
    engine: &mut dyn Engine,
    calls: &[Call],
    tally: &mut Tally,
    named: impl Fn(usize) -> String,
) -> Result<(), String> {
    for (place, call) in calls.iter().enumerate() {
        let name = named(place);
        compare_call(engine, call, tally).map_err(|difference| format!("{name}\n{difference}"))?;
    }
    Ok(())
}

/// What is about to be done, which a trace tells at once.
fn announced(trace: bool, what: String) -> String {
    if trace {
        eprintln!("{what}");
    }
    what
}

fn compare_call(engine: &mut dyn Engine, call: &Call, tally: &mut Tally) -> Result<(), String> {
    let expected = call.make(&mut Model);
    let found = call.make(engine);
    if expected != found {
        return Err(format!("{call}model:\n{expected}library:\n{found}"));
    }
    tally.count(call, expected.answer, &expected.bytes);
    Ok(())
}

fn compare_laws(
    engine: &mut dyn Engine,
    seed: u64,
    number: u64,
    tally: &mut LawTally,
) -> Result<(), String> {
    let case = laws::case(seed, number);
    let described = |breach: String| format!("{breach}\n{}", case.describe());
    let found = laws::examine(engine, &case, tally).map_err(described)?;
    let expected = laws::examine(&mut Model, &case, &mut LawTally::default()).map_err(described)?;
    if found != expected {
        return Err(described(format!(
            "model: {expected:?}\nlibrary: {found:?}"
        )));
    }
    Ok(())
}

#[cfg(test)]
mod tests {
    use super::spoilt::{Fault, Spoilt, FAULTS};
    use super::*;

    fn outcome(fault: Fault) -> Result<(), String> {
        let mut tally = Tally::default();
        compare(
            &mut Spoilt { fault },
            4,
            |group| group < 800,
            false,
            &mut tally,
        )
    }

    #[test]
    fn the_model_agrees_with_itself() {
        assert_eq!(outcome(Fault::None), Ok(()));
    }

    #[test]
    fn every_fault_is_noticed() {
        for &fault in FAULTS {
            assert!(outcome(fault).is_err(), "{fault:?} went by");
        }
    }

    #[test]
    fn a_difference_names_the_case() {
        let text = outcome(Fault::InventLiveCount).expect_err("noticed");
        assert!(text.starts_with("seed 4 group "), "{text}");
        assert!(text.contains("file "), "{text}");
    }
}
