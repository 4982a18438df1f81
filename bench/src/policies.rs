//! The policies that are measured.

#[cfg(test)]
mod tests;

use crate::file::*;
use crate::generated::Shape;
use crate::random::Random;

/// In the policies that are run there are as many signals as there can be, so
/// that an edit has the most values to choose from.
const SIGNALS: u8 = 4;

/// Of a hundred rules that many lead to the violation: few, or half of them.
const FEW: u64 = 20;
const HALF: u64 = 50;

/// One input and one output, two locations and two rules: the input leads to a
/// location without a future, so it is never kept.
pub fn smallest() -> Policy {
    let leads = |input, target| Rule {
        input,
        ..Rule::open(0, target, 0)
    };
    Policy {
        inputs: 1,
        outputs: 1,
        ceilings: vec![],
        locations: vec![0; 2],
        rules: vec![leads(Condition::set(1), 1), leads(Condition::ANY, 0)],
    }
}

/// Two locations and six rules: a request (input bit 0) is answered (output
/// bit 0) on the fourth tick at the latest, and two inputs exclude each other.
pub fn short() -> Policy {
    let rule = |source, input, output, reset, target, bound| Rule {
        source,
        input,
        output,
        reset,
        target,
        bounds: vec![bound],
    };
    let any = Condition::ANY;
    let both = Condition::set(0b0110);
    let rules = vec![
        rule(0, both, any, 0, VIOLATION, OPEN),
        rule(0, Condition::set(0b0001), any, 1, 1, OPEN),
        rule(0, any, Condition::clear(0b0001), 1, 0, OPEN),
        rule(1, both, any, 0, VIOLATION, OPEN),
        rule(1, any, Condition::set(0b0001), 1, 0, OPEN),
        rule(1, any, Condition::clear(0b0010), 0, 1, (0, 2)),
    ];
    Policy {
        inputs: SIGNALS,
        outputs: SIGNALS,
        ceilings: vec![3],
        locations: vec![0; 2],
        rules,
    }
}

/// The longest file there is: 256 rules, four for each of 64 locations, four
/// clocks and 65,536 states. Few of the states die, and a run visits nearly
/// all locations.
pub fn long() -> Policy {
    let shape = Shape {
        signals: SIGNALS,
        locations: 64,
        rules_per_location: 4,
        violations: FEW,
        ceilings: &[3, 3, 7, 7],
    };
    shape.generate(23)
}

/// 256 rules at one location. All but the last take few events each, so that
/// the search for the first that fires goes far; the last permits the rest.
pub fn crowded() -> Policy {
    let shape = Shape {
        signals: SIGNALS,
        locations: 1,
        rules_per_location: 255,
        violations: FEW,
        ceilings: &[31, 31],
    };
    let mut policy = shape.generate(1);
    let mut random = Random::new(2);
    for rule in &mut policy.rules {
        rule.input = one_value(&mut random);
        rule.output = one_value(&mut random);
        if random.percent(50) {
            rule.target = VIOLATION;
        }
    }
    policy.rules.push(Rule::open(0, 0, policy.ceilings.len()));
    policy
}

fn one_value(random: &mut Random) -> Condition {
    Condition::value(random.byte() & 0b1111)
}

/// Where every rule costs a tick the most while it takes nothing: 255 rules
/// agree with every event and fail at the last of four clocks, and only the
/// event 15, 15 is permitted. By events, each of 256 would try all the rules.
pub fn barred() -> Policy {
    // At 0 it fails under both readings.
    let last = (2, NO_UPPER_BOUND);
    let barred = one_location(Condition::ANY, Condition::ANY, 0, [OPEN, OPEN, OPEN, last]);
    let mut rules = vec![barred; 255];
    let all = Condition::set(0b1111);
    rules.push(one_location(all, all, 0, [OPEN; 4]));
    from_one_location(rules)
}

/// Where every rule costs a tick the most and takes something: its bounds
/// hold, it agrees with the event 0, 0 as read, and it is left just one event
/// x, y. (It agrees with the submasks of x and of y, whose rules stand before
/// it.) The rules left an event with x 0, or 8, 0, lead to location 1, which
/// has no rules; of the inputs nearest to 0 the first is 8.
pub fn nested() -> Policy {
    let bound = (0, 2);
    let rule = |event: u8| {
        let (x, y) = (event >> 4, event & 15);
        let target = u8::from(x == 0 || (x, y) == (8, 0));
        one_location(
            Condition::within(x),
            Condition::within(y),
            target,
            [bound; 4],
        )
    };
    from_one_location((0..=255).map(rule).collect())
}

/// A rule of location 0 that resets all four clocks.
fn one_location(input: Condition, output: Condition, target: u8, bounds: [Bound; 4]) -> Rule {
    Rule {
        source: 0,
        input,
        output,
        reset: 0b1111,
        target,
        bounds: bounds.to_vec(),
    }
}

fn from_one_location(rules: Vec<Rule>) -> Policy {
    Policy {
        inputs: SIGNALS,
        outputs: SIGNALS,
        ceilings: vec![3; 4],
        locations: vec![0; 2],
        rules,
    }
}

/// 1,024 states.
pub fn thousand() -> Policy {
    prepared(2, 16, FEW, &[7, 7], 18)
}

/// 10,000 states.
pub fn ten_thousand() -> Policy {
    prepared(2, 25, FEW, &[19, 19], 24)
}

/// 65,536 states, as many as there can be.
pub fn full() -> Policy {
    prepared(2, 64, FEW, &[31, 31], 33)
}

/// 65,536 states, about a third of which die.
pub fn third_dies() -> Policy {
    prepared(SIGNALS, 64, FEW, &[31, 31], 38)
}

/// 65,536 states, most of which die.
pub fn most_die() -> Policy {
    prepared(SIGNALS, 64, HALF, &[31, 31], 38)
}

/// 65,536 states, all of which die.
pub fn all_die() -> Policy {
    prepared(SIGNALS, 64, HALF, &[31, 31], 1)
}

fn prepared(
    signals: u8,
    locations: u8,
    violations: u64,
    ceilings: &'static [u16],
    seed: u64,
) -> Policy {
    let shape = Shape {
        signals,
        locations,
        rules_per_location: 4,
        violations,
        ceilings,
    };
    shape.generate(seed)
}

/// 65,536 states. Of the first 48 locations only each fourth may rest; the last
/// 16 must all be left, and lead only to each other.
pub fn leaving() -> Policy {
    let (locations, trap) = (64, 48);
    let mut policy = prepared(2, locations, FEW, &[31, 31], 33);
    for (number, byte) in policy.locations.iter_mut().enumerate() {
        *byte = u8::from(number >= trap.into() || number % 4 != 0);
    }
    for rule in &mut policy.rules {
        if rule.source >= trap && rule.target != VIOLATION {
            rule.target = trap + rule.target % (locations - trap);
        }
    }
    policy
}

/// 65,536 states, none of which dies: 64 locations in a ring with four rules
/// each, of which the last takes every event.
pub fn lasting() -> Policy {
    let conditions = [
        Condition::set(0b0001),
        Condition::set(0b0010),
        Condition::set(0b0100),
        Condition::ANY,
    ];
    let mut policy = ring(64, &conditions, OPEN);
    policy.ceilings = vec![31, 31];
    policy
}

/// As many states, of which those of the last location die, since it has no
/// rules. No rule enters it, and streams lead to all other states.
pub fn apart() -> Policy {
    let mut policy = lasting();
    let ring = policy.locations.len() as u8 - 1;
    policy.rules.retain(|rule| rule.source < ring);
    for (number, rule) in policy.rules.iter_mut().enumerate() {
        rule.target %= ring;
        rule.reset = number as u8 % 4;
    }
    policy
}

/// 8,192 states in two locations. The first has so many rules, each of which is
/// left just one event, and all of its states are reached; the second has none,
/// and is never entered. So half of the states die at once, the others go on by
/// their first rule, and the verdict asks where every rule leads.
fn reached_alone(rules: usize) -> Policy {
    let rule = |event: u8| Rule {
        input: Condition::within(event >> 4),
        output: Condition::within(event & 15),
        reset: event & 15,
        ..Rule::open(0, 0, 4)
    };
    Policy {
        inputs: SIGNALS,
        outputs: SIGNALS,
        ceilings: vec![7; 4],
        locations: vec![0; 2],
        rules: (0..=255).take(rules).map(rule).collect(),
    }
}

pub fn reached_by_128() -> Policy {
    reached_alone(128)
}

pub fn reached_by_256() -> Policy {
    reached_alone(256)
}

/// 256 rules shared out evenly to so many locations, and 1,024 states: of each
/// location all rules but the last are for few events.
pub fn shared_out(locations: u8) -> Policy {
    let ceiling = 1_024 / u16::from(locations) - 1;
    let of_each = 256 / usize::from(locations);
    let mut random = Random::new(6);
    let mut rules = Vec::new();
    for source in 0..locations {
        for _ in 1..of_each {
            rules.push(Rule {
                input: one_value(&mut random),
                output: one_value(&mut random),
                ..Rule::open(source, source, 1)
            });
        }
        rules.push(Rule::open(source, (source + 1) % locations, 1));
    }
    Policy {
        inputs: SIGNALS,
        outputs: SIGNALS,
        ceilings: vec![ceiling.min(1_001)],
        locations: vec![0; locations.into()],
        rules,
    }
}

/// Two small policies to be joined.
pub fn small_pair() -> (Policy, Policy) {
    (short(), short())
}

/// Two policies whose join meets every limit and passes none: 64 locations,
/// 4 clocks, 256 rules, 65,536 states. Of the six pairs of rules at each pair
/// of locations two contradict.
pub fn largest_pair() -> (Policy, Policy) {
    let second_only = Condition {
        care: 0b0011,
        value: 0b0010,
    };
    let first = [Condition::set(0b0001), Condition::ANY];
    let second = [Condition::clear(0b0001), second_only, Condition::ANY];
    (ring(8, &first, (0, 2)), ring(8, &second, (0, 2)))
}

/// Locations in a ring, each with one rule for each condition, and two clocks,
/// of which the first has a bound.
fn ring(locations: u8, conditions: &[Condition], bound: (u16, u16)) -> Policy {
    let rules_at = |source: u8| {
        conditions.iter().map(move |&input| Rule {
            source,
            input,
            output: Condition::ANY,
            reset: 0b01,
            target: (source + 1) % locations,
            bounds: vec![bound, OPEN],
        })
    };
    Policy {
        inputs: SIGNALS,
        outputs: SIGNALS,
        ceilings: vec![3, 7],
        locations: vec![0; locations.into()],
        rules: (0..locations).flat_map(rules_at).collect(),
    }
}
