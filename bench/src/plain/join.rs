//! Two policies as one.

use super::policy::*;
use super::refusal::Refusal;
use super::rule::{Rule, VIOLATION};

/// Writes the joined file at the beginning of `out` and returns its length.
pub fn join(a: &[u8], b: &[u8], out: &mut [u8]) -> Result<usize, Refusal> {
    let a = Policy::check(a)?;
    let b = Policy::check(b)?;
    if a.inputs != b.inputs || a.outputs != b.outputs {
        return Err(Refusal::SignalsDiffer);
    }
    if !within_limits(&a, &b) {
        return Err(Refusal::JoinTooLarge);
    }
    let rules = count_rules(&a, &b);
    if rules > MAX_RULES {
        return Err(Refusal::JoinTooLarge);
    }
    let length = joined_length(&a, &b, rules);
    let out = out.get_mut(..length).ok_or(Refusal::SliceTooShort)?;
    let mut writer = Writer { rest: out };
    write_counts(&mut writer, &a, &b, rules);
    write_rules(&mut writer, &a, &b);
    Ok(length)
}

fn within_limits(a: &Policy, b: &Policy) -> bool {
    a.locations * b.locations <= MAX_LOCATIONS
        && a.clocks + b.clocks <= MAX_CLOCKS
        && a.states * b.states <= MAX_STATES
}

fn count_rules(a: &Policy, b: &Policy) -> usize {
    let mut count = 0;
    for_each_pair(a, b, |_, _, _| count += 1);
    count
}

/// The six bytes are the counts.
fn joined_length(a: &Policy, b: &Policy, rules: usize) -> usize {
    let clocks = a.clocks + b.clocks;
    let signals = a.inputs.len() + a.outputs.len();
    6 + signals + 2 * clocks + a.locations * b.locations + rules * rule_length(clocks)
}

/// The part of a slice not yet written. It is as long as what is put.
struct Writer<'a> {
    rest: &'a mut [u8],
}

impl Writer<'_> {
    fn put(&mut self, bytes: &[u8]) {
        let (here, rest) = std::mem::take(&mut self.rest).split_at_mut(bytes.len());
        here.copy_from_slice(bytes);
        self.rest = rest;
    }
}

fn write_counts(writer: &mut Writer, a: &Policy, b: &Policy, rules: usize) {
    for tags in [a.inputs, a.outputs] {
        writer.put(&[tags.len() as u8]);
        writer.put(tags);
    }
    writer.put(&[(a.clocks + b.clocks) as u8]);
    for policy in [a, b] {
        for ceiling in &policy.ceilings[..policy.clocks] {
            writer.put(&ceiling.to_be_bytes());
        }
    }
    let locations = a.locations * b.locations;
    writer.put(&[locations as u8]);
    for left_a in a.must_leave {
        for left_b in b.must_leave {
            writer.put(&[left_a | left_b]);
        }
    }
    writer.put(&(rules as u16).to_be_bytes());
}

fn write_rules(writer: &mut Writer, a: &Policy, b: &Policy) {
    for_each_pair(a, b, |location, rule_a, rule_b| {
        writer.put(&joined_head(a, b, location, rule_a, rule_b));
        writer.put(rule_a.bound_bytes());
        writer.put(rule_b.bound_bytes());
    });
}

/// The pairs of rules that do not contradict, in the order of the joined
/// file: by the number of the pair of locations, the rules of A before those
/// of B.
fn for_each_pair(a: &Policy, b: &Policy, mut each: impl FnMut(u8, Rule, Rule)) {
    let mut location = 0;
    for location_a in 0..a.locations as u8 {
        let rules_a = a.rules.of(location_a);
        for location_b in 0..b.locations as u8 {
            let rules_b = b.rules.of(location_b);
            for rule_a in rules_a.iter() {
                for rule_b in rules_b.iter().filter(|rule_b| agree(rule_a, *rule_b)) {
                    each(location, rule_a, rule_b);
                }
            }
            location += 1;
        }
    }
}

fn agree(rule_a: Rule, rule_b: Rule) -> bool {
    !rule_a.input().contradicts(rule_b.input()) && !rule_a.output().contradicts(rule_b.output())
}

fn joined_head(
    a: &Policy,
    b: &Policy,
    location: u8,
    rule_a: Rule,
    rule_b: Rule,
) -> [u8; HEAD_LENGTH] {
    let (input_a, input_b) = (rule_a.input(), rule_b.input());
    let (output_a, output_b) = (rule_a.output(), rule_b.output());
    let target = match (rule_a.target(), rule_b.target()) {
        (VIOLATION, _) | (_, VIOLATION) => VIOLATION,
        (target_a, target_b) => target_a * b.locations as u8 + target_b,
    };
    [
        location,
        input_a.care | input_b.care,
        input_a.value | input_b.value,
        output_a.care | output_b.care,
        output_a.value | output_b.value,
        rule_a.reset() | rule_b.reset() << a.clocks,
        target,
    ]
}
