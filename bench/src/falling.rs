//! The policies that the two engines of prepare are set against each other on.

use crate::file::*;
use crate::generated::Shape;
use crate::plain;
use crate::policies;

pub struct Falling {
    pub name: &'static str,
    pub file: Vec<u8>,
}

fn of(name: &'static str, policy: Policy) -> Falling {
    let file = policy.encode();
    Falling { name, file }
}

/// What `row` says of those whose names begin so.
pub fn rows(
    all: Vec<Falling>,
    begins: &str,
    row: impl Fn(&Falling) -> Result<String, String>,
) -> Result<Vec<String>, String> {
    let named = all
        .iter()
        .filter(|falling| falling.name.starts_with(begins));
    named.map(row).collect()
}

/// A name and its numbers, in columns.
pub fn row_of(name: &str, numbers: &[&str]) -> String {
    let columns = numbers.iter().map(|number| format!("{number:>15}"));
    format!("{name:<40}{}", columns.collect::<String>())
}

pub fn all() -> Vec<Falling> {
    let mut all = from(|policy| policy);
    all.push(joined("joined, another", 0, 12));
    all
}

/// With a start that lives where none did: `why` asks about a live state.
pub fn living() -> Vec<Falling> {
    let mut living = from(started);
    let each = crowd(|event| event & 15);
    living.extend([
        of("fall in rising order, 65,536 states", longest_chain()),
        of("255 rules, an event each", started(each)),
        of("255 rules, all inputs each", started(crowd(|_| 16))),
        of("255 rules, the last for nothing", started(idle_last())),
    ]);
    living
}

/// What is done to those whose start does not live is given.
fn from(start: impl Fn(Policy) -> Policy) -> Vec<Falling> {
    vec![
        of("none falls", policies::lasting()),
        of("none falls, violations first", barred()),
        of("a quarter cannot be left", policies::leaving()),
        joined("joined", 0, 11),
        joined("joined, some must be left", 3, 13),
        of("fall in rising order, 2 events", start(chain(1, 0))),
        of("fall in rising order, 256 events", start(chain(4, 4))),
        of("long ways to rest", long_ways()),
        of("stuck loops", start(stuck())),
        of("nested, in rising order", start(nested())),
    ]
}

/// A start before the other locations, where it stays for ever.
fn started(mut policy: Policy) -> Policy {
    for rule in &mut policy.rules {
        rule.source += 1;
        if rule.target != VIOLATION {
            rule.target += 1;
        }
    }
    let clocks = policy.ceilings.len();
    let stay = Rule {
        reset: (1 << clocks) - 1,
        ..Rule::open(0, 0, clocks)
    };
    policy.rules.insert(0, stay);
    policy.locations.insert(0, 0);
    policy
}

/// 255 rules in one location, all of which lead to the same state, and nowhere
/// at the ceiling: each for the input given, or for any if there is none such.
fn crowd(input: impl Fn(u8) -> u8) -> Policy {
    let value = |value| match value < 16 {
        true => Condition::value(value),
        false => Condition::ANY,
    };
    let rules = (0..255).map(|event| Rule {
        output: value(event >> 4),
        bounds: vec![(0, 179), OPEN],
        ..rule(0, value(input(event)), 0, 0, OPEN)
    });
    Policy {
        inputs: 4,
        outputs: 4,
        ceilings: vec![180, 180],
        locations: vec![0],
        rules: rules.collect(),
    }
}

/// 254 rules in the first of two locations, each for all inputs; the last of them
/// is left no event, and leads to a state from which more ticks are permitted
/// than the others leave.
fn idle_last() -> Policy {
    let mut policy = crowd(|_| 16);
    policy.ceilings = vec![180, 90];
    policy.locations.push(0);
    policy.rules.pop();
    for rule in &mut policy.rules {
        rule.bounds[0] = (0, 178);
    }
    policy.rules[253] = Rule {
        output: Condition::ANY,
        target: 1,
        ..policy.rules[253].clone()
    };
    policy.rules.push(Rule {
        bounds: vec![(0, 179), OPEN],
        ..rule(1, Condition::ANY, 0, 1, OPEN)
    });
    policy
}

/// As many states as there can be. Two clocks: the first counts to 511, the
/// second to 1.
fn longest_chain() -> Policy {
    let rules = (0..63).map(|l| Rule {
        bounds: vec![(0, 510), OPEN],
        ..rule(l, Condition::ANY, 0, (l + 62) % 63, OPEN)
    });
    started(Policy {
        inputs: 2,
        outputs: 2,
        ceilings: vec![511, 1],
        locations: vec![0; 63],
        rules: rules.collect(),
    })
}

fn rule(source: u8, input: Condition, reset: u8, target: u8, bound: Bound) -> Rule {
    Rule {
        input,
        reset,
        bounds: vec![bound],
        ..Rule::open(source, target, 1)
    }
}

/// 50 locations and a clock up to 1,000: 50,050 states.
fn fifty(inputs: u8, outputs: u8, must_leave: impl Fn(u8) -> u8, rules: Vec<Rule>) -> Policy {
    Policy {
        inputs,
        outputs,
        ceilings: vec![1000],
        locations: (0..50).map(must_leave).collect(),
        rules,
    }
}

const BEFORE_THE_LAST: Bound = (0, 999);
const AT_THE_LAST: Bound = (1000, NO_UPPER_BOUND);

/// 64,064 states, none of which dies; the first rules of each location forbid
/// some inputs.
fn barred() -> Policy {
    let mut rules = Vec::new();
    for source in 0..64 {
        for input in 13..16 {
            rules.push(rule(source, Condition::value(input), 0, VIOLATION, OPEN));
        }
        rules.push(rule(source, Condition::ANY, 1, (source + 1) % 64, OPEN));
    }
    Policy {
        inputs: 4,
        outputs: 4,
        ceilings: vec![1000],
        locations: vec![0; 64],
        rules,
    }
}

/// A state goes on to the location below with the next clock value, and there
/// is no way on at the ceiling: each sweep takes few.
fn chain(inputs: u8, outputs: u8) -> Policy {
    let rules = (0..50).map(|l| rule(l, Condition::ANY, 0, (l + 49) % 50, BEFORE_THE_LAST));
    fifty(inputs, outputs, |_| 0, rules.collect())
}

/// All must be left but the last, a thousand ticks from each location.
fn long_ways() -> Policy {
    let mut rules = Vec::new();
    for l in 0..50 {
        rules.push(rule(l, Condition::ANY, 0, l, BEFORE_THE_LAST));
        rules.push(rule(l, Condition::ANY, 1, (l + 1) % 50, AT_THE_LAST));
    }
    fifty(2, 2, |l| u8::from(l != 49), rules)
}

/// Locations that must be left, in pairs that lead to each other and nowhere
/// else once the clock is at its ceiling.
fn stuck() -> Policy {
    let mut rules = Vec::new();
    for l in 0..50 {
        let next = if l < 48 { l + 2 } else { l };
        rules.push(rule(l, Condition::clear(1), 0, l ^ 1, OPEN));
        rules.push(rule(l, Condition::set(1), 0, next, BEFORE_THE_LAST));
    }
    fifty(2, 2, |_| 1, rules)
}

/// The chain, in which each second location must be left and may also wait.
fn nested() -> Policy {
    let mut rules = Vec::new();
    for l in 0..50 {
        rules.push(rule(
            l,
            Condition::clear(1),
            0,
            (l + 49) % 50,
            BEFORE_THE_LAST,
        ));
        if l % 2 == 1 {
            rules.push(rule(l, Condition::set(1), 0, l, OPEN));
        }
    }
    fifty(2, 2, |l| l % 2, rules)
}

/// The join of two random policies: 64 locations and 57,600 states. Of each
/// eight locations so many must be left, and six have a rule for every event.
fn joined(name: &'static str, must_leave: usize, seed: u64) -> Falling {
    let part = |seed| {
        let shape = Shape {
            signals: 2,
            locations: 8,
            rules_per_location: 2,
            violations: 10,
            ceilings: &[4, 5],
        };
        let mut policy = shape.generate(seed);
        policy.locations[8 - must_leave..].fill(1);
        let last = policy.rules.iter_mut().skip(1).step_by(2);
        for rule in last.filter(|rule| rule.source < 6) {
            rule.input = Condition::ANY;
            rule.output = Condition::ANY;
            rule.bounds.fill(OPEN);
        }
        policy.encode()
    };
    let mut file = vec![0; LONGEST_FILE];
    let length = plain::join(&part(seed), &part(seed + 100), &mut file).expect("they join");
    file.truncate(length);
    Falling { name, file }
}

#[cfg(test)]
mod tests {
    use super::*;

    #[test]
    fn both_methods_leave_the_marks_of_the_plain_program() {
        for falling in all() {
            for reading in [1, 2] {
                let swept = plain::looks::sweeps(reading, &falling.file).expect("a policy");
                let walked = plain::looks::walk(reading, &falling.file).expect("a policy");
                assert_eq!(swept.marks, walked.marks, "{}", falling.name);
            }
        }
    }

    #[test]
    fn the_walk_looks_at_no_rule_of_a_state_twice() {
        for falling in all() {
            let walked = plain::looks::walk(1, &falling.file).expect("a policy");
            let most = plain::looks::rules_that_lead(1, &falling.file).expect("a policy");
            assert!(walked.looks <= most, "{}", falling.name);
        }
    }
}
