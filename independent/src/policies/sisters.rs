//! Policies to be joined.

use super::parts::{some_ceilings, some_tags, with_rules};
use crate::graph::Graph;
use crate::policy::Policy;
use crate::random::Random;
use crate::reading::Reading;

/// How large policies to be joined are.
#[derive(Clone, Copy, Debug, PartialEq, Eq)]
pub enum Family {
    /// Any three can be joined but for the number of rules.
    Small,
    /// Some pairs pass a limit.
    Large,
}

/// Policies with the same signals. Most have a live start when read so, since a
/// join with one that has none is as hopeless as it.
pub fn sisters(random: &mut Random, reading: Reading, family: Family, count: usize) -> Vec<Policy> {
    let (inputs, outputs) = some_tags(random);
    let lively = random.percent(85);
    let one = |random: &mut Random| loop {
        let policy = sister(random, family, &inputs, &outputs);
        if !lively || Graph::new(&policy, reading).liveness().live[0] {
            return policy;
        }
    };
    (0..count).map(|_| one(random)).collect()
}

fn sister(random: &mut Random, family: Family, inputs: &[u8], outputs: &[u8]) -> Policy {
    let (locations, clocks, room) = match family {
        Family::Small => (4, 1, 6),
        Family::Large => (9, 3, 300),
    };
    let locations = random.between(1, locations);
    let clocks = random.between(0, clocks);
    let ceilings = some_ceilings(random, clocks, room);
    with_rules(
        random,
        inputs.to_vec(),
        outputs.to_vec(),
        ceilings,
        locations,
    )
}
