//! The words for why something was edited.

use crate::policy::{Bound, Policy, Rule, NO_UPPER_BOUND};
use crate::why::Reason;

/// A line for each half that was edited. An input that is a violation is one
/// with every output, and the reason is that for the lowest.
pub fn lines_of(policy: &Policy, [input, output]: [Reason; 2]) -> Vec<String> {
    let at_once = matches!(input, Reason::Rule(_) | Reason::NoRule);
    let every = match at_once {
        true => "no output will do; with none on, ",
        false => "",
    };
    let input = words(policy, input).map(|words| format!("input: {every}{words}"));
    let output = words(policy, output).map(|words| format!("output: {words}"));
    input.into_iter().chain(output).collect()
}

/// The words of a reason, if there is one.
fn words(policy: &Policy, reason: Reason) -> Option<String> {
    let counted = |most: usize, what: &str, end: &str| {
        let s = if most == 1 { "" } else { "s" };
        Some(format!("after it at most {most} more {what}{s}{end}"))
    };
    match reason {
        Reason::NotEdited => None,
        Reason::Rule(number) => Some(format!(
            "rule {number} forbids it: {}",
            asks(policy, &policy.rules[number])
        )),
        Reason::NoRule => Some("no rule allows it".to_string()),
        Reason::Ticks(most) => counted(most, "tick", ""),
        Reason::Rests(0) => Some("after it never at rest again".to_string()),
        Reason::Rests(most) => counted(most, "time", " at rest"),
    }
}

/// What a rule asks: where, which signals on, which off, and which clocks.
fn asks(policy: &Policy, rule: &Rule) -> String {
    let mut parts = vec![format!("at location {}", rule.source)];
    for (on, word) in [(true, "on"), (false, "off")] {
        let halves = [(&policy.inputs, rule.input), (&policy.outputs, rule.output)];
        let named: Vec<String> = halves
            .iter()
            .flat_map(|(tags, condition)| {
                let asked = |bit: usize| {
                    condition.care >> bit & 1 == 1 && (condition.value >> bit & 1 == 1) == on
                };
                let tag = |bit: usize| char::from(tags[bit]).to_string();
                (0..tags.len()).filter(move |&bit| asked(bit)).map(tag)
            })
            .collect();
        if !named.is_empty() {
            parts.push(format!("{} {word}", named.join(" ")));
        }
    }
    for (clock, bound) in rule.bounds[..policy.ceilings.len()].iter().enumerate() {
        match bound {
            &Bound::OPEN => {}
            Bound { low, high } if *high == NO_UPPER_BOUND => {
                parts.push(format!("clock {clock} from {low} on"))
            }
            Bound { low, high } => parts.push(format!("clock {clock} from {low} to {high}")),
        }
    }
    parts.join(", ")
}
