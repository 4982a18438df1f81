//! Writes the text of a policy, which has no names but those of the numbers.

use crate::policy::*;
use std::fmt::{self, Display};

pub fn text_of(policy: &Policy) -> String {
    Sections(policy).to_string()
}

/// A policy as its text, each section a paragraph.
struct Sections<'a>(&'a Policy);

impl Display for Sections<'_> {
    fn fmt(&self, out: &mut fmt::Formatter) -> fmt::Result {
        let policy = self.0;
        for tag in &policy.inputs {
            writeln!(out, "input {}", char::from(*tag))?;
        }
        for tag in &policy.outputs {
            writeln!(out, "output {}", char::from(*tag))?;
        }
        for (clock, ceiling) in policy.ceilings.iter().enumerate() {
            writeln!(out, "clock t{clock} {ceiling}")?;
        }
        for (location, must_be_left) in policy.must_leave.iter().enumerate() {
            let words = if *must_be_left { " must be left" } else { "" };
            writeln!(out, "location q{location}{words}")?;
        }
        for rules in policy.rules.chunk_by(|a, b| a.source == b.source) {
            writeln!(out, "\nat q{}", rules[0].source)?;
            for rule in rules {
                writeln!(out, "  {}", line_of(policy, rule))?;
            }
        }
        Ok(())
    }
}

/// Inputs, outputs, clocks, each in the order of the file; a low before its high.
fn line_of(policy: &Policy, rule: &Rule) -> String {
    let mut words = Vec::new();
    put_signals(&mut words, &policy.inputs, rule.input);
    put_signals(&mut words, &policy.outputs, rule.output);
    for (clock, bound) in rule.bounds[..policy.ceilings.len()].iter().enumerate() {
        if bound.low != 0 {
            words.push(format!("t{clock} >= {}", bound.low));
        }
        if bound.high != NO_UPPER_BOUND {
            words.push(format!("t{clock} <= {}", bound.high));
        }
    }
    if words.is_empty() {
        words.push("any".to_string());
    }
    words.push("->".to_string());
    words.push(match rule.target {
        VIOLATION => "violation".to_string(),
        location => format!("q{location}"),
    });
    if rule.reset != 0 {
        words.push("reset".to_string());
    }
    let reset = (0..MAX_CLOCKS).filter(|clock| rule.reset >> clock & 1 == 1);
    words.extend(reset.map(|clock| format!("t{clock}")));
    words.join(" ")
}

fn put_signals(words: &mut Vec<String>, tags: &[u8], condition: Condition) {
    for (bit, &tag) in tags.iter().enumerate() {
        let (care, value) = (condition.care >> bit & 1, condition.value >> bit & 1);
        let sign = if value == 1 { "" } else { "!" };
        if care == 1 {
            words.push(format!("{sign}{}", char::from(tag)));
        }
    }
}
