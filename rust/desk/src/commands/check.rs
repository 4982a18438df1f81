//! `check`: what a policy comes to, or where it is wrong.

use std::ffi::OsStr;

use groovepawn::{Reading, Struck, Summary};

use crate::fault::Fault;
use crate::out::Out;
use crate::policies::Named;
use crate::signals::Signals;
use crate::words::Words;

pub fn obey(words: &Words) -> Result<(), Fault> {
    if words.operands.is_empty() {
        return Err(words.wrong_count());
    }
    let readings = match words.reading_named()? {
        Some(reading) => vec![reading],
        None => Reading::BOTH.to_vec(),
    };
    let mut out = Out::standard();
    let mut fault: Option<Fault> = None;
    for path in &words.operands {
        // One that is wrong does not keep the others from being told.
        let checked = check(path, &readings, &mut out);
        out.flush()?;
        if let Err(next) = checked {
            if let Some(earlier) = fault.replace(next) {
                earlier.tell();
            }
        }
    }
    out.finish()?;
    fault.map_or(Ok(()), Err)
}

fn check(path: &OsStr, readings: &[Reading], out: &mut Out) -> Result<(), Fault> {
    let named = Named::read(path)?;
    out.line(&format!("{}: {}", named.name, contents(&named)))?;
    let mut hopeless = Vec::new();
    for &reading in readings {
        let comes_to = match named.policy.prepare_fast(reading) {
            Ok((_, summary)) => verdict(summary),
            Err(refusal) => {
                hopeless.push((reading, refusal));
                format!("{} live, hopeless", named.policy.marks(reading).live())
            }
        };
        let number = reading.number();
        out.line(&format!("  reading {number}: {comes_to}"))?;
        let cleaned = named.policy.clean(reading);
        let cleaned = cleaned.map_err(|refusal| Fault::refused(&named.name, refusal))?;
        if let Some(words) = unused(&cleaned.struck) {
            out.line(&format!("  reading {number}: {words}"))?;
        }
    }
    let place = match hopeless[..] {
        [(reading, _)] => format!("under reading {}", reading.number()),
        _ => "under both readings".to_string(),
    };
    match hopeless.pop() {
        None => Ok(()),
        Some((_, refusal)) => Err(Fault::refused(&named.name, refusal.at(place))),
    }
}

/// How much of a policy is of no use, if something is.
fn unused(struck: &[Struck]) -> Option<String> {
    let is_location = |one: &&Struck| matches!(one, Struck::Location(_));
    let locations = struck.iter().filter(is_location).count();
    let counted = [(locations, "location"), (struck.len() - locations, "rule")];
    let parts: Vec<String> = counted
        .into_iter()
        .filter(|&(count, _)| count > 0)
        .map(|(count, what)| plural(count, what))
        .collect();
    if parts.is_empty() {
        return None;
    }
    Some(format!(
        "{} of no use; clean says which",
        parts.join(" and ")
    ))
}

fn plural(count: usize, what: &str) -> String {
    format!("{count} {what}{}", if count == 1 { "" } else { "s" })
}

fn verdict(summary: Summary) -> String {
    let words = match summary.verdict() {
        0 => "every state that a permitted stream leads to is live",
        _ => "some state that a permitted stream leads to is not live",
    };
    format!(
        "{} live, verdict {}: {words}",
        summary.live,
        summary.verdict()
    )
}

/// What stands in the file.
fn contents(named: &Named) -> String {
    let policy = &named.policy;
    let counts = [
        (policy.ceilings().len(), "clock"),
        (policy.locations().len(), "location"),
        (policy.rules().len(), "rule"),
        (policy.states(), "state"),
    ];
    let counts = counts.map(|(count, what)| plural(count, what));
    let signals = Signals::of(named);
    let inputs = signals.words(policy.signals() & 0x0f);
    let outputs = signals.words(policy.signals() & 0xf0);
    format!("inputs {inputs}, outputs {outputs}, {}", counts.join(", "))
}
