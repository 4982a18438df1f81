//! `join`: several policies as one.

use std::io::{self, Write};

use groovepawn::{Policy, Refusal};

use crate::fault::Fault;
use crate::help;
use crate::limits;
use crate::out::Out;
use crate::policies::Named;
use crate::signals::Signals;
use crate::words::Words;

pub fn obey(words: &Words) -> Result<(), Fault> {
    let path = words.out_needed()?;
    let clean = match (words.has(&help::CLEAN), words.reading_named()?) {
        (true, None) => return Err(words.wrong("--clean needs the reading, -r 1 or -r 2".into())),
        (false, Some(_)) => {
            return Err(words.wrong("a join has no reading; -r is that of --clean".into()))
        }
        (_, reading) => reading,
    };
    // All are read before the first is joined, so that a wrong one is told at once.
    let parts = words
        .operands
        .iter()
        .map(|path| Named::read(path))
        .collect::<Result<Vec<_>, _>>()?;
    tell_other_names(&parts);
    let cleaned = |policy: &Policy| match clean {
        None => Ok(policy.clone()),
        Some(reading) => policy.clean(reading).map(|cleaned| cleaned.policy),
    };
    let mut joined: Option<Policy> = None;
    for (number, part) in parts.iter().enumerate() {
        let what = || format!("{} (policy {})", part.name, number + 1);
        let policy = cleaned(&part.policy).map_err(|refusal| Fault::refused(what(), refusal))?;
        joined = Some(match joined {
            None => policy,
            Some(before) => {
                let both = before.join(&policy).and_then(|both| cleaned(&both));
                both.map_err(|refusal| Fault::refused(what(), why_not(refusal, &before, &policy)))?
            }
        });
    }
    let joined = joined.ok_or_else(|| words.wrong_count())?;
    let mut out = Out::of(Some(path))?;
    out.put(joined.bytes())?;
    out.finish()
}

/// A refused join, with the limit that it is over.
fn why_not(refusal: Refusal, joined: &Policy, other: &Policy) -> Refusal {
    match refusal.number() {
        12 => refusal.at(limits::signals(joined, other)),
        13 => refusal.at(format!(
            "joined to those before it: {}",
            limits::over(joined, other)
        )),
        _ => refusal,
    }
}

/// Says where two texts have one letter and two names for it: a join goes by letters,
/// and they may be two things.
fn tell_other_names(parts: &[Named]) {
    for (number, part) in parts.iter().enumerate() {
        for before in &parts[..number] {
            let (ours, theirs) = (Signals::of(part), Signals::of(before));
            for (one, other) in ours.all().iter().zip(theirs.all()) {
                let both = part.text.is_some() && before.text.is_some();
                if both && one.tag == other.tag && one.name != other.name {
                    let (tag, name, called) = (one.tag, &one.name, &other.name);
                    let (here, there) = (&part.name, &before.name);
                    let words = format!("{tag} is {name} in {here} and {called} in {there}");
                    let _ = writeln!(io::stderr(), "groovepawn: note: {words}");
                }
            }
        }
    }
}
