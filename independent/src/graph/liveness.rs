//! Which states are live.

use super::Graph;

/// The live states, and how deep the dying goes.
pub struct Liveness {
    pub live: Vec<bool>,
    /// The most groups without a future that one permitted stream passes
    /// through. So many times a pass over all states, looking only at the last
    /// pass, would strike something.
    pub rounds: usize,
}

impl Liveness {
    pub fn count(&self) -> usize {
        self.live.iter().filter(|&&live| live).count()
    }

    /// The marks that say the same.
    pub fn marks(&self) -> Vec<u8> {
        self.live.iter().map(|&live| u8::from(live)).collect()
    }
}

impl Graph {
    /// A state is live exactly if it leads, by no event or more, to a state
    /// that rests and leads back to itself. Round and round from there every
    /// number of events ends at rest. And a stream with more events at rest
    /// than there are states comes twice to the same one of them.
    ///
    /// Such a state is in a group with a way round, and every other state of
    /// its group leads to it.
    pub fn liveness(&self) -> Liveness {
        let groups = self.groups();
        let mut live = vec![false; self.resting.len()];
        let mut depth = vec![0; self.resting.len()];
        // What a group leads to comes after it, so it is known by then.
        for members in (0..groups.count()).rev().map(|group| groups.of(group)) {
            let rests = members.iter().any(|&state| self.resting[state as usize]);
            let ways = || members.iter().flat_map(|&state| self.of(state)).copied();
            let alive = self.has_way_round(members) && rests || ways().any(|to| live[to as usize]);
            let deepest = ways().map(|to| depth[to as usize]).max().unwrap_or(0);
            for &state in members {
                live[state as usize] = alive;
                depth[state as usize] = if alive { 0 } else { deepest + 1 };
            }
        }
        let rounds = depth.into_iter().max().unwrap_or(0);
        Liveness { live, rounds }
    }
}
