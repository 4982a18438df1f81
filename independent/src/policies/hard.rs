//! Policies that are hard on an engine.

use super::parts::some_must_leave;
use super::{sisters, unit, Family};
use crate::join;
use crate::parse;
use crate::policy::*;
use crate::random::Random;
use crate::reading::READINGS;
use crate::rules;

/// A policy that is hard on an engine: its states fall against the order of
/// their numbers, or one by one along the clock, or in loops that must be left;
/// or it is a join.
pub fn adversarial(random: &mut Random) -> Policy {
    match random.below(6) {
        0..=1 => falling(random),
        2..=3 => ring(random),
        4 => trap(random),
        _ => joined(random),
    }
}

/// The start leads to the last location, each location to the one before it,
/// at once or only when its clock has come to the end, and location 1 to
/// nothing. So what has the lowest number falls first, and the start last, if
/// it has no other way.
fn falling(random: &mut Random) -> Policy {
    let locations = random.between(2, 20);
    let ceiling = random.between(1, 12) as u16;
    let mut policy = Policy {
        ceilings: vec![ceiling],
        must_leave: some_must_leave(random, locations),
        rules: vec![],
        ..unit(b"A", b"")
    };
    let waits = random.percent(50);
    let when = |value| Condition { care: 1, value };
    policy.rules.push(Rule {
        input: when(1),
        ..rules::open(0, locations - 1)
    });
    if random.percent(50) {
        policy.rules.push(rules::open(0, 0));
    }
    for location in 2..locations {
        let mut bounds = [Bound::OPEN; MAX_CLOCKS];
        bounds[0].low = if waits { ceiling } else { 0 };
        let further = Rule {
            reset: 1,
            bounds,
            ..rules::open(location, location - 1)
        };
        let waiting = Rule {
            bounds: [
                Bound {
                    low: 0,
                    high: ceiling - 1,
                },
                Bound::OPEN,
                Bound::OPEN,
                Bound::OPEN,
            ],
            ..rules::open(location, location)
        };
        policy.rules.extend([further, waiting]);
    }
    // Now and then the end leads back to somewhere.
    if random.percent(25) {
        let target = random.between(0, locations - 1);
        policy.rules.push(rules::open(1, target));
        policy.rules.sort_by_key(|rule| rule.source);
    }
    policy
}

/// Rings of locations that must be left, one inside the other: each location
/// leads on, some also back or to a place of rest beside the ring that leads
/// back, or to nothing.
fn ring(random: &mut Random) -> Policy {
    let around = random.between(1, 20);
    let beside = random.between(0, 3);
    let mut policy = Policy {
        ceilings: if random.percent(50) {
            vec![random.between(1, 6) as u16]
        } else {
            vec![]
        },
        must_leave: vec![true; around],
        rules: vec![],
        ..unit(b"AB", b"C")
    };
    policy.must_leave.extend(vec![false; beside]);
    let locations = around + beside;
    let when = |value| Condition { care: 3, value };
    for location in 0..around {
        if random.percent(30) {
            let back = random.between(0, location);
            policy.rules.push(Rule {
                input: when(1),
                ..rules::open(location, back)
            });
        }
        if random.percent(15) && beside > 0 {
            let rest = random.between(around, locations - 1);
            policy.rules.push(Rule {
                input: when(2),
                ..rules::open(location, rest)
            });
        }
        let next = (location + 1) % around;
        policy.rules.push(Rule {
            input: when(0),
            reset: policy.clock_mask(),
            ..rules::open(location, next)
        });
    }
    for location in around..locations {
        if random.percent(40) {
            let target = random.between(0, locations - 1);
            policy.rules.push(rules::open(location, target));
        }
    }
    policy
}

/// The start stays, and some of its events lead into what has no future: on and
/// on through locations of which some rest, to one without rules or to one that
/// must be left and never is. Some that must be left have a loop of their own.
pub fn trap(random: &mut Random) -> Policy {
    let locations = random.between(3, 8);
    let mut policy = Policy {
        must_leave: (0..locations).map(|_| random.percent(50)).collect(),
        rules: vec![],
        ..unit(b"A", b"BC")
    };
    policy.must_leave[0] = false;
    let when = |care, value| Condition { care, value };
    for output in 0..4 {
        let target = match random.below(5) {
            0 => usize::from(VIOLATION),
            1 => continue,
            _ => random.between(1, locations - 1),
        };
        policy.rules.push(Rule {
            input: when(1, 1),
            output: when(3, output),
            ..rules::open(0, target)
        });
    }
    policy.rules.push(Rule {
        output: when(3, 3),
        ..rules::open(0, random.between(1, locations - 1))
    });
    policy.rules.push(Rule {
        input: when(1, 0),
        ..rules::open(0, 0)
    });
    for location in 1..locations {
        if policy.must_leave[location] && random.percent(60) {
            policy.rules.push(Rule {
                output: when(1, 1),
                ..rules::open(location, location)
            });
        }
        if location + 1 < locations {
            let further = random.between(location + 1, (location + 2).min(locations - 1));
            policy.rules.push(rules::open(location, further));
        }
    }
    policy
}

/// Two sisters joined, where that can be done.
fn joined(random: &mut Random) -> Policy {
    loop {
        let reading = random.pick(&READINGS);
        let sisters = sisters(random, reading, Family::Small, 2);
        let mut out = vec![0; 6_000];
        if let Ok(length) = join::join(&sisters[0].encode(), &sisters[1].encode(), &mut out) {
            return parse::check(&out[..length]).expect("a join is a policy");
        }
    }
}
