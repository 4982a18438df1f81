//! `draw`: the automaton for Graphviz.

use std::collections::BTreeSet;
use std::fmt::Write;

use groovepawn::{Cleaned, Struck, Target};

use crate::asks::Asks;
use crate::fault::Fault;
use crate::out::Out;
use crate::policies::Named;
use crate::words::Words;

pub fn obey(words: &Words) -> Result<(), Fault> {
    let [path] = words.exactly()?;
    let reading = words.reading()?;
    let named = Named::read(path)?;
    let cleaned = named
        .policy
        .clean(reading)
        .map_err(|refusal| Fault::refused(&named.name, refusal))?;
    let mut out = Out::of(words.out()?)?;
    out.put(drawing(&named, &Unused::of(&cleaned)).as_bytes())?;
    out.finish()
}

/// What no permitted stream enters or uses: what cleaning strikes.
struct Unused {
    locations: BTreeSet<usize>,
    rules: BTreeSet<usize>,
}

impl Unused {
    fn of(cleaned: &Cleaned) -> Unused {
        let mut unused = Unused {
            locations: BTreeSet::new(),
            rules: BTreeSet::new(),
        };
        for struck in &cleaned.struck {
            match *struck {
                Struck::Location(number) => unused.locations.insert(number),
                Struck::RuleOfLocation(number) | Struck::Rule(number) => {
                    unused.rules.insert(number)
                }
            };
        }
        unused
    }
}

const GREY: &str = "style=dashed, color=gray60, fontcolor=gray60";
const RED: &str = "color=red3, fontcolor=red3";

fn drawing(named: &Named, unused: &Unused) -> String {
    let asks = Asks::of(named);
    let mut text = String::from(
        "digraph policy {\n  rankdir=LR;\n  node [shape=circle];\n  start [shape=point];\n  start -> q0;\n",
    );
    for (number, location) in named.policy.locations().into_iter().enumerate() {
        let mut looks = Vec::new();
        if asks.names.are_said() {
            looks.push(format!("label=\"{}\"", asks.names.location(number)));
        }
        if location.must_be_left {
            looks.push("shape=doublecircle".to_string());
        }
        if unused.locations.contains(&number) {
            looks.push(GREY.to_string());
        }
        let _ = writeln!(text, "  q{number} [{}];", looks.join(", "));
    }
    for (number, rule) in asks.rules.iter().enumerate() {
        let target = match rule.target {
            Target::Location(location) => format!("q{location}"),
            // Each has its own, so that lines do not cross the whole picture.
            Target::Violation => {
                let looks = if unused.rules.contains(&number) {
                    GREY
                } else {
                    RED
                };
                let _ = writeln!(
                    text,
                    "  v{number} [label=\"violation\", shape=plaintext, {looks}];"
                );
                format!("v{number}")
            }
        };
        let looks = match rule.target {
            _ if unused.rules.contains(&number) => format!(", {GREY}"),
            Target::Violation => format!(", {RED}"),
            Target::Location(_) => String::new(),
        };
        let place = match asks.names.line(number) {
            Some(line) => format!("line {line}"),
            None => number.to_string(),
        };
        let (source, line) = (rule.source, asks.line(rule));
        let _ = writeln!(
            text,
            "  q{source} -> {target} [label=\"{place}: {line}\"{looks}];"
        );
    }
    text.push_str("}\n");
    text
}
