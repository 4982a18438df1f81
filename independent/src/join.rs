//! Two policies as one.

use crate::parse;
use crate::policy::*;
use crate::refusal::Refusal;

/// Writes the joined file at the beginning of `out` and returns its length.
pub fn join(a: &[u8], b: &[u8], out: &mut [u8]) -> Result<usize, Refusal> {
    let a = parse::check(a)?;
    let b = parse::check(b)?;
    if a.inputs != b.inputs || a.outputs != b.outputs {
        return Err(Refusal::SignalsDiffer);
    }
    let joined = product(&a, &b).ok_or(Refusal::JoinTooLarge)?;
    let file = joined.encode();
    if out.len() < file.len() {
        return Err(Refusal::SliceTooShort);
    }
    out[..file.len()].copy_from_slice(&file);
    Ok(file.len())
}

/// Nothing if a limit is passed. The limits are looked at together, at the
/// end, since all have the one number.
fn product(a: &Policy, b: &Policy) -> Option<Policy> {
    let joined = Policy {
        inputs: a.inputs.clone(),
        outputs: a.outputs.clone(),
        ceilings: [a.ceilings.as_slice(), &b.ceilings].concat(),
        must_leave: joined_locations(a, b),
        rules: Vec::new(),
    };
    let fits = joined.locations() <= MAX_LOCATIONS
        && joined.ceilings.len() <= MAX_CLOCKS
        && joined.states() <= MAX_STATES;
    if !fits {
        return None;
    }
    let rules = joined_rules(a, b);
    (rules.len() <= MAX_RULES).then_some(Policy { rules, ..joined })
}

/// The pairs in number order: one must be left if either part must.
fn joined_locations(a: &Policy, b: &Policy) -> Vec<bool> {
    let pairs_of = |&left_a: &bool| b.must_leave.iter().map(move |&left_b| left_a || left_b);
    a.must_leave.iter().flat_map(pairs_of).collect()
}

/// Sources stand in order in both files, so this is the number order of the
/// pairs of locations, and within one pair the rules of A before those of B.
fn joined_rules(a: &Policy, b: &Policy) -> Vec<Rule> {
    let mut rules = Vec::new();
    for location_a in 0..a.locations() {
        for location_b in 0..b.locations() {
            for rule_a in rules_of(a, location_a) {
                for rule_b in rules_of(b, location_b) {
                    rules.extend(joined_rule(a, b, rule_a, rule_b));
                }
            }
        }
    }
    rules
}

fn rules_of(policy: &Policy, location: usize) -> impl Iterator<Item = &Rule> {
    let here = move |rule: &&Rule| usize::from(rule.source) == location;
    policy.rules.iter().filter(here)
}

/// Nothing if the care bits contradict.
fn joined_rule(a: &Policy, b: &Policy, rule_a: &Rule, rule_b: &Rule) -> Option<Rule> {
    let pair = |from_a: u8, from_b: u8| from_a * b.locations() as u8 + from_b;
    let violation = rule_a.target == VIOLATION || rule_b.target == VIOLATION;
    let clocks_a = a.ceilings.len();
    let mut bounds = rule_a.bounds;
    bounds[clocks_a..].copy_from_slice(&rule_b.bounds[..MAX_CLOCKS - clocks_a]);
    Some(Rule {
        source: pair(rule_a.source, rule_b.source),
        input: both(rule_a.input, rule_b.input)?,
        output: both(rule_a.output, rule_b.output)?,
        reset: rule_a.reset | rule_b.reset << clocks_a,
        target: if violation {
            VIOLATION
        } else {
            pair(rule_a.target, rule_b.target)
        },
        bounds,
    })
}

fn both(a: Condition, b: Condition) -> Option<Condition> {
    let contradiction = a.care & b.care & (a.value ^ b.value) != 0;
    (!contradiction).then_some(Condition {
        care: a.care | b.care,
        value: a.value | b.value,
    })
}

#[cfg(test)]
mod tests {
    use super::*;
    use crate::events::RuleBook;
    use crate::policies::{self, Family};
    use crate::random::Random;
    use crate::reading::READINGS;

    /// A stream is permitted by the join exactly when by both, and rests there
    /// exactly when it rests in both: under each reading, used for all three.
    #[test]
    fn a_join_permits_what_both_permit_and_rests_where_both_rest() {
        let mut random = Random::new(51);
        let (mut yes, mut no, mut apart) = (0, 0, 0);
        for _ in 0..600 {
            let reading = random.pick(&READINGS);
            let sisters = policies::sisters(&mut random, reading, Family::Small, 2);
            let (a, b) = (&sisters[0], &sisters[1]);
            let Some(joined) = product(a, b) else {
                continue;
            };
            assert_eq!(parse::check(&joined.encode()).as_ref(), Ok(&joined));
            let book = |policy| RuleBook::new(policy, reading);
            let books = (book(a), book(b), book(&joined));
            for _ in 0..10 {
                let length = random.below(8);
                let stream: Vec<u8> = (0..length)
                    .map(|_| random.byte() & a.event_mask())
                    .collect();
                let ends = (books.0.follow_all(&stream), books.1.follow_all(&stream));
                let end = books.2.follow_all(&stream);
                let (Some(in_a), Some(in_b)) = ends else {
                    assert_eq!(end, None);
                    no += 1;
                    continue;
                };
                let rests = (a.rests_in(in_a.location), b.rests_in(in_b.location));
                let end = end.expect("both permit the stream");
                assert_eq!(joined.rests_in(end.location), rests.0 && rests.1);
                yes += 1;
                apart += usize::from(rests.0 != rests.1);
            }
        }
        assert!(yes > 300 && no > 300, "yes {yes}, no {no}");
        assert!(apart > 100, "one part rests and the other not: {apart}");
    }
}
