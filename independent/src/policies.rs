//! Random policies of all shapes.

mod hard;
mod parts;
mod sisters;

use crate::policy::*;
use crate::random::Random;
use crate::rules;
pub use hard::{adversarial, trap};
pub use parts::some_must_leave;
use parts::{some_ceilings, some_locations, some_tags, with_rules};
pub use sisters::{sisters, Family};

/// How many states a random policy may have.
#[derive(Clone, Copy, Debug, PartialEq, Eq)]
pub enum Size {
    /// At most 40: small enough to try every stream.
    Tiny,
    /// At most 600.
    Small,
    /// At most 6,000.
    Medium,
    /// At most 65,536.
    Large,
    /// 65,536 exactly.
    Full,
}

/// Shapes with exactly 65,536 states: locations and ceilings.
const FULL_SHAPES: [(usize, &[u16]); 6] = [
    (1, &[255, 255]),
    (64, &[31, 31]),
    (64, &[1, 1, 255]),
    (16, &[7, 7, 7, 7]),
    (1, &[15, 15, 15, 15]),
    (32, &[3, 511]),
];

/// Shapes with too many states. Counted in 32 bits some of them would come
/// out as 0 or as a number that is allowed.
const OVERFULL_SHAPES: [(usize, &[u16]); 9] = [
    (1, &[255, 256]),
    (64, &[1_001, 1]),
    (64, &[31, 32]),
    (17, &[7, 7, 7, 7]),
    (64, &[1_001, 1_001, 1_001, 1_001]),
    (1, &[255, 255, 255, 255]),
    (64, &[511, 511, 255]),
    (3, &[511, 255, 255, 127]),
    (32, &[511, 511, 511, 31]),
];

/// A policy of any size; the large ones are rare, since they are slow.
pub fn any(random: &mut Random) -> Policy {
    let size = match random.below(1_000) {
        0..=1 => Size::Full,
        2..=5 => Size::Large,
        6..=49 => Size::Medium,
        50..=599 => Size::Small,
        _ => Size::Tiny,
    };
    of_size(random, size)
}

pub fn of_size(random: &mut Random, size: Size) -> Policy {
    let most_states = match size {
        Size::Tiny => 40,
        Size::Small => 600,
        Size::Medium => 6_000,
        Size::Large => 65_536,
        Size::Full => return full(random),
    };
    let locations = some_locations(random, most_states);
    let clocks = random.between(0, MAX_CLOCKS);
    let ceilings = some_ceilings(random, clocks, most_states / locations);
    let (inputs, outputs) = some_tags(random);
    with_rules(random, inputs, outputs, ceilings, locations)
}

fn full(random: &mut Random) -> Policy {
    shaped(random, &FULL_SHAPES)
}

/// Valid but for refusal 9.
pub fn overfull(random: &mut Random) -> Policy {
    shaped(random, &OVERFULL_SHAPES)
}

fn shaped(random: &mut Random, shapes: &[(usize, &[u16])]) -> Policy {
    let (locations, ceilings) = random.pick(shapes);
    let mut ceilings = ceilings.to_vec();
    random.shuffle(&mut ceilings);
    let (inputs, outputs) = some_tags(random);
    with_rules(random, inputs, outputs, ceilings, locations)
}

/// A policy without clocks that permits only some few events, each with any
/// number of bits from the others.
pub fn picky(random: &mut Random) -> Policy {
    let (inputs, outputs) = some_tags(random);
    let mut policy = Policy {
        rules: vec![],
        ..unit(&inputs, &outputs)
    };
    for _ in 0..random.between(1, 5) {
        let exactly = |mask: u8, random: &mut Random| Condition {
            care: mask,
            value: mask & random.byte(),
        };
        policy.rules.push(Rule {
            input: exactly(policy.input_mask(), random),
            output: exactly(policy.output_mask(), random),
            ..rules::open(0, 0)
        });
    }
    policy
}

/// The policy with these signals that permits everything.
pub fn unit(inputs: &[u8], outputs: &[u8]) -> Policy {
    Policy {
        inputs: inputs.to_vec(),
        outputs: outputs.to_vec(),
        ceilings: vec![],
        must_leave: vec![false],
        rules: vec![rules::open(0, 0)],
    }
}

#[cfg(test)]
mod tests {
    use super::*;
    use crate::graph::Graph;
    use crate::parse;
    use crate::reading::{Reading, READINGS};
    use crate::refusal::Refusal;

    #[test]
    fn random_policies_are_valid() {
        let mut random = Random::new(71);
        for _ in 0..2_000 {
            let policy = any(&mut random);
            assert_eq!(parse::check(&policy.encode()), Ok(policy));
        }
        for _ in 0..20 {
            assert_eq!(of_size(&mut random, Size::Full).states(), MAX_STATES);
            let overfull = overfull(&mut random).encode();
            assert_eq!(parse::check(&overfull), Err(Refusal::TooManyStates));
            let adversarial = adversarial(&mut random);
            assert_eq!(parse::check(&adversarial.encode()), Ok(adversarial));
            let picky = picky(&mut random);
            assert_eq!(parse::check(&picky.encode()), Ok(picky));
        }
    }

    /// Whether some state goes on for ever and yet is not live.
    fn lives_more_if_all_rest(policy: &Policy, reading: Reading, live: usize) -> bool {
        let resting = Policy {
            must_leave: vec![false; policy.locations()],
            ..policy.clone()
        };
        Graph::new(&resting, reading).liveness().count() > live
    }

    /// Random policies are of use only if they are of all kinds.
    #[test]
    fn random_policies_are_of_all_shapes_and_verdicts() {
        let mut random = Random::new(72);
        let mut inputs = [0; 5];
        let mut outputs = [0; 5];
        let mut clocks = [0; 5];
        let (mut whole, mut partial, mut hopeless, mut deep) = (0, 0, 0, 0);
        let (mut all_rest, mut restless, mut read_apart) = (0, 0, 0);
        let (mut most_rules, mut most_locations, mut highest) = (0, 0, 0);
        for _ in 0..3_000 {
            let policy = any(&mut random);
            inputs[policy.inputs.len()] += 1;
            outputs[policy.outputs.len()] += 1;
            clocks[policy.ceilings.len()] += 1;
            most_rules = most_rules.max(policy.rules.len());
            most_locations = most_locations.max(policy.locations());
            highest = highest.max(policy.ceilings.iter().copied().max().unwrap_or(0));
            let reading = random.pick(&READINGS);
            let liveness = Graph::new(&policy, reading).liveness();
            let otherwise = Graph::new(&policy, reading.other()).liveness();
            read_apart += usize::from(liveness.live != otherwise.live);
            deep += usize::from(liveness.rounds > 3);
            all_rest += usize::from(!policy.must_leave.contains(&true));
            restless += usize::from(lives_more_if_all_rest(&policy, reading, liveness.count()));
            match (liveness.live[0], liveness.live.iter().all(|&live| live)) {
                (_, true) => whole += 1,
                (true, false) => partial += 1,
                (false, _) => hopeless += 1,
            }
        }
        for counts in [inputs, outputs, clocks] {
            assert!(counts.iter().all(|&count| count > 50), "{counts:?}");
        }
        for count in [whole, partial, hopeless, deep] {
            assert!(count > 150, "{whole} {partial} {hopeless} {deep}");
        }
        assert!((1_200..1_800).contains(&all_rest), "{all_rest}");
        assert!(restless > 300, "{restless}");
        assert!(read_apart > 300, "{read_apart}");
        assert_eq!((most_rules, most_locations), (MAX_RULES, MAX_LOCATIONS));
        assert_eq!(highest, MAX_CEILING);
    }
}
