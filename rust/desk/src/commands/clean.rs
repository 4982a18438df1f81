//! `clean`: a policy without what is of no use.

use std::path::Path;

use groovepawn::Struck;

use crate::fault::Fault;
use crate::help;
use crate::names::Names;
use crate::out::Out;
use crate::policies::Named;
use crate::words::Words;

pub fn obey(words: &Words) -> Result<(), Fault> {
    let [path] = words.exactly()?;
    words.needed(&help::READING)?;
    let reading = words.reading()?;
    let cleaned_path = words.out_needed()?;
    let named = Named::read(path)?;
    let cleaned = named
        .policy
        .clean(reading)
        .map_err(|refusal| Fault::refused(&named.name, refusal))?;
    // Standard output has the list of what went, so the policy goes to a file.
    let mut file = Out::file(Path::new(cleaned_path))?;
    file.put(cleaned.policy.bytes())?;
    file.finish()?;
    let mut out = Out::standard();
    let names = Names::of(&named);
    for struck in cleaned.struck {
        out.line(&line(struck, &names))?;
    }
    out.line(&format!("left {} bytes", cleaned.policy.bytes().len()))?;
    out.finish()
}

fn line(struck: Struck, names: &Names) -> String {
    match struck {
        Struck::Location(number) => {
            let location = names.location(number);
            format!("location {location}: no permitted stream from the start leads to it")
        }
        Struck::RuleOfLocation(number) => {
            format!("rule {}: of such a location", names.rule(number))
        }
        Struck::Rule(number) => {
            let rule = names.rule(number);
            format!("rule {rule}: decides no event in any state such a stream leads to")
        }
    }
}
