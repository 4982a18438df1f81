//! The policies that `clean` is counted on, beside prepare.

use crate::cases::{prepared, Preparation};
use crate::file::*;
use crate::generated::Shape;
use crate::policies;

/// All under reading 1, and of 65,536 states but for the chain.
pub static CLEANED: [Preparation; 13] = [
    prepared("all entered, all used", 1, all_used),
    prepared("every second location entered", 1, every_second),
    prepared("a rule in four decides nothing", 1, shadowed),
    prepared("a default after a split deadline", 1, split),
    prepared("entered in falling order", 1, falling),
    prepared("a chain while a clock goes up", 1, chain),
    prepared("a tenth not live", 1, tenth_dies),
    prepared("a late rule", 1, late),
    prepared("16 rules, some late, some shadowed", 1, sixteen),
    prepared("256 rules, an event each", 1, crowd),
    prepared("256 rules, the last decides nothing", 1, idle_last),
    prepared("256 rules, random bounds", 1, bounded),
    prepared("239 rules covered only together", 1, covered_together),
];

/// The C function, on the slices that it takes. The plain program has none.
pub type Clean = fn(u8, &[u8], &mut [u8], &mut [u8]) -> u64;

#[cfg(feature = "library")]
pub const LIBRARY: Option<Clean> = Some(crate::library::clean);

#[cfg(not(feature = "library"))]
pub const LIBRARY: Option<Clean> = None;

const LOCATIONS: u8 = 64;
/// Where one location is led to only by rules that decide nothing.
const ENTERED: u8 = LOCATIONS - 1;

/// The ceiling of both clocks of 64 locations.
const CEILING: u16 = 31;
const AT_THE_CEILING: Bound = (CEILING, NO_UPPER_BOUND);

/// 64 locations of 1,024 states, each with four rules, which between them take
/// every event and have all resets there are: streams lead to every clock value
/// of a location that is entered.
fn four_rules(target: impl Fn(u8) -> u8) -> Policy {
    let mut policy = policies::lasting();
    for (number, rule) in (0..=255).zip(&mut policy.rules) {
        rule.reset = number % 4;
        rule.target = target(rule.source);
    }
    policy
}

fn policy(ceilings: Vec<u16>, locations: u8, rules: impl Iterator<Item = Rule>) -> Policy {
    Policy {
        inputs: 4,
        outputs: 4,
        ceilings,
        locations: vec![0; locations.into()],
        rules: rules.collect(),
    }
}

fn all_used() -> Policy {
    four_rules(|source| (source + 1) % LOCATIONS)
}

fn every_second() -> Policy {
    four_rules(|source| (source + 2) % LOCATIONS)
}

fn falling() -> Policy {
    four_rules(below)
}

/// The location below this one; below the start, the last.
fn below(location: u8) -> u8 {
    (location + LOCATIONS - 1) % LOCATIONS
}

/// The first three rules of a location take every event, and the fourth, which
/// none is left for, leads to a location that no other enters.
fn shadowed() -> Policy {
    let mut policy = four_rules(|source| (source + 1) % ENTERED);
    for rules in policy.rules.chunks_exact_mut(4) {
        rules[2].input = Condition::ANY;
        rules[3].input = Condition::set(0b1000);
        rules[3].target = ENTERED;
    }
    policy
}

/// Some events reset no clock. For the others there is a rule up to a deadline,
/// which resets the second clock, and one past it, which resets the first; then
/// a default, which no event is left for and which leads to a location that no
/// other enters.
fn split() -> Policy {
    let mut policy = four_rules(|source| (source + 1) % ENTERED);
    for (location, rules) in (0..).zip(policy.rules.chunks_exact_mut(4)) {
        let deadline = CEILING - 1 - location % 15;
        for rule in &mut rules[1..] {
            rule.input = Condition::ANY;
        }
        (rules[1].reset, rules[1].bounds[0]) = (0b10, (0, deadline));
        (rules[2].reset, rules[2].bounds[0]) = (0b01, (deadline + 1, NO_UPPER_BOUND));
        rules[3].target = ENTERED;
    }
    policy
}

/// 64,000 states: each goes on to the location below with the next clock value.
fn chain() -> Policy {
    let rule = |source| Rule::open(source, below(source), 1);
    policy(vec![999], LOCATIONS, (0..LOCATIONS).map(rule))
}

/// No rule holds at the last three of 32 values of the first clock.
fn tenth_dies() -> Policy {
    let mut policy = all_used();
    for rule in &mut policy.rules {
        rule.bounds[0] = (0, CEILING - 3);
    }
    policy
}

/// The first rule of each location holds only at the ceiling of the clock that
/// changes slower as the states are numbered.
fn late() -> Policy {
    let mut policy = all_used();
    for rules in policy.rules.chunks_exact_mut(4) {
        rules[0].bounds[0] = AT_THE_CEILING;
        // Without it no clock could get there.
        (rules[0].reset, rules[3].reset) = (rules[3].reset, rules[0].reset);
    }
    policy
}

/// 16 locations of 4,096 states with 16 rules each. Of four rules one holds only
/// at the ceiling of the slower clock, and one repeats the rule before it and
/// leads to a location that no other enters.
fn sixteen() -> Policy {
    let (locations, ceiling) = (16, 63);
    let entered = locations - 1;
    let rule = |source: u8, number: u8| {
        let next = Rule {
            input: Condition::value(number),
            reset: number >> 1 & 0b11,
            ..Rule::open(source, (source + 1) % entered, 2)
        };
        match number % 4 {
            1 => Rule {
                bounds: vec![(ceiling, NO_UPPER_BOUND), OPEN],
                ..next
            },
            3 => Rule {
                input: Condition::value(number - 1),
                target: entered,
                ..next
            },
            _ => next,
        }
    };
    let rules_at = |source| (0..16).map(move |number| rule(source, number));
    let rules = (0..locations).flat_map(rules_at);
    policy(vec![ceiling; 2], locations, rules)
}

/// 256 rules at one location, and four clocks. The resets are all that there
/// are; the rule of an event agrees with the submasks of its halves too, whose
/// rules stand before it.
fn crowd() -> Policy {
    let rule = |event: u8| Rule {
        input: Condition::within(event >> 4),
        output: Condition::within(event & 15),
        reset: event & 15,
        ..Rule::open(0, 0, 4)
    };
    policy(vec![15; 4], 1, (0..=255).map(rule))
}

/// The last rule repeats the one before it, and alone resets all clocks.
fn idle_last() -> Policy {
    let mut policy = crowd();
    for (number, rule) in policy.rules.iter_mut().enumerate() {
        rule.reset = number as u8 % 15;
    }
    policy.rules[255] = Rule {
        reset: 0b1111,
        ..policy.rules[254].clone()
    };
    policy
}

/// As many rules for one event each; of their clocks one in four is bounded.
fn bounded() -> Policy {
    let shape = Shape {
        signals: 4,
        locations: 1,
        rules_per_location: 256,
        violations: 0,
        ceilings: &[15; 4],
    };
    let mut policy = shape.generate(5);
    for (event, rule) in (0..=255).zip(&mut policy.rules) {
        rule.input = Condition::value(event >> 4);
        rule.output = Condition::value(event & 15);
    }
    policy
}

/// One location and four clocks. Of the first 16 rules eight take every event
/// while the first clock is low, and eight while it is high: no one of them covers
/// any of the 239 rules behind them, which take every event, but together they do.
fn covered_together() -> Policy {
    let covering = |number: u8| {
        let first_clock = match number < 8 {
            true => (0, 7),
            false => (8, NO_UPPER_BOUND),
        };
        Rule {
            output: Condition {
                care: 0b0111,
                value: number % 8,
            },
            reset: number,
            bounds: vec![first_clock, OPEN, OPEN, OPEN],
            ..Rule::open(0, 0, 4)
        }
    };
    let covered = |number: u8| Rule {
        reset: number % 16,
        ..Rule::open(0, 0, 4)
    };
    let rules = (0..16).map(covering).chain((0..239).map(covered));
    policy(vec![15; 4], 1, rules)
}

#[cfg(test)]
mod tests {
    use super::*;
    use crate::engine::{refusal_in, Engine, Plain};

    #[test]
    fn each_has_its_states_and_all_live_but_a_tenth() {
        for cleaning in &CLEANED {
            let answer = Plain.prepare(1, &cleaning.file(), &mut [0; MOST_STATES]);
            assert_eq!(refusal_in(answer), 0, "{}", cleaning.name);
            let counts = ((answer >> 16) as usize & 0xFF_FFFF, (answer >> 40) as usize);
            let expected = match cleaning.name {
                "a chain while a clock goes up" => (64_000, 64_000),
                "a tenth not live" => (MOST_STATES, MOST_STATES * 29 / 32),
                _ => (MOST_STATES, MOST_STATES),
            };
            assert_eq!(counts, expected, "{}", cleaning.name);
        }
    }
}
