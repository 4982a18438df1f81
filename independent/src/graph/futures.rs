//! How long streams can be, and how often they can rest.

use super::Graph;

/// How far the streams from each state can go.
pub struct Futures {
    /// Whether permitted streams of every length leave it.
    pub endless: Vec<bool>,
    /// The length of the longest permitted stream from it, where there is one.
    pub ticks: Vec<usize>,
    /// The most events at rest of a permitted stream from it, if it is not
    /// live.
    pub rests: Vec<usize>,
}

impl Graph {
    /// A group with a way round goes on for ever. One that is not live has no
    /// state at rest then, so all rests come after it is left, and from each of
    /// its states it can be left by each event that leaves it.
    pub fn futures(&self) -> Futures {
        let groups = self.groups();
        let states = self.resting.len();
        let mut group_of = vec![0; states];
        for group in 0..groups.count() {
            for &state in groups.of(group) {
                group_of[state as usize] = group;
            }
        }
        let (mut endless, mut ticks, mut rests) =
            (vec![false; states], vec![0; states], vec![0; states]);
        for group in (0..groups.count()).rev() {
            let members = groups.of(group);
            let ways = members.iter().flat_map(|&state| self.of(state));
            let outside: Vec<usize> = ways
                .map(|&to| to as usize)
                .filter(|&to| group_of[to] != group)
                .collect();
            let round = self.has_way_round(members) || outside.iter().any(|&to| endless[to]);
            let longest = outside.iter().map(|&to| ticks[to] + 1).max().unwrap_or(0);
            let rested = |&to: &usize| rests[to] + usize::from(self.resting[to]);
            let most = outside.iter().map(rested).max().unwrap_or(0);
            for &state in members {
                endless[state as usize] = round;
                ticks[state as usize] = longest;
                rests[state as usize] = most;
            }
        }
        Futures {
            endless,
            ticks,
            rests,
        }
    }
}
