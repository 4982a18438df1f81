//! Engines side by side: many short rounds in turn, and the median of the ratios
//! of neighbours. Whatever slows the machine for longer than a round slows all
//! that take part in it, and so leaves their ratios alone.

use crate::clock;
use crate::engine::Engine;
use crate::work::Work;
use std::hint::black_box;
use std::time::Duration;

/// A round has as many passes as fill this time, and at least one.
const ROUND: Duration = Duration::from_millis(1);
/// There are as many rounds as fill this time, within limits.
const ALL_ROUNDS: Duration = Duration::from_millis(1_000);
const FEWEST_ROUNDS: usize = 21;
const MOST_ROUNDS: usize = 401;

/// Nanoseconds for one unit of the work: a row for each round, with a number for
/// each side.
pub struct Rounds(Vec<Vec<f64>>);

/// The median of the ratios, with the tenth and the ninetieth of a hundred.
#[derive(Clone, Copy, Debug, PartialEq)]
pub struct Ratio {
    pub low: f64,
    pub median: f64,
    pub high: f64,
}

impl Rounds {
    /// A single round.
    #[cfg(test)]
    pub fn of_one(times: Vec<f64>) -> Rounds {
        Rounds(vec![times])
    }

    pub fn median(&self, side: usize) -> f64 {
        at_share(&sorted(self.of(side)), 0.5)
    }

    pub fn best(&self, side: usize) -> f64 {
        self.of(side).fold(f64::INFINITY, f64::min)
    }

    /// Of one side to another in the same round.
    pub fn ratio(&self, of: usize, to: usize) -> Ratio {
        let ratios = sorted(self.0.iter().map(|round| round[of] / round[to]));
        Ratio {
            low: at_share(&ratios, 0.1),
            median: at_share(&ratios, 0.5),
            high: at_share(&ratios, 0.9),
        }
    }

    fn of(&self, side: usize) -> impl Iterator<Item = f64> + '_ {
        self.0.iter().map(move |round| round[side])
    }
}

pub fn measure(work: &mut dyn Work, sides: &[&dyn Engine]) -> Rounds {
    let pass = slowest_pass(work, sides);
    let passes = count(ROUND, pass).max(1);
    let turn = pass * (sides.len() * passes) as u32;
    let rounds = count(ALL_ROUNDS, turn).clamp(FEWEST_ROUNDS, MOST_ROUNDS);
    let times = |_| {
        sides
            .iter()
            .map(|side| round(work, *side, passes))
            .collect()
    };
    Rounds((0..rounds).map(times).collect())
}

/// How often `part` goes into `whole`.
fn count(whole: Duration, part: Duration) -> usize {
    (whole.as_nanos() / part.as_nanos().max(1)) as usize
}

/// About the time of one pass on the slowest side. The passes made here also
/// warm all sides up.
fn slowest_pass(work: &mut dyn Work, sides: &[&dyn Engine]) -> Duration {
    let mut one = |side: &&dyn Engine| {
        let mut passes = 1;
        loop {
            let time = timed(work, *side, passes);
            if time >= ROUND {
                return time / passes as u32;
            }
            passes *= 2;
        }
    };
    sides.iter().map(&mut one).max().unwrap_or(ROUND)
}

/// Nanoseconds for one unit of the work, in a round of so many passes.
fn round(work: &mut dyn Work, engine: &dyn Engine, passes: usize) -> f64 {
    let units = passes * work.units();
    timed(work, engine, passes).as_nanos() as f64 / units as f64
}

fn timed(work: &mut dyn Work, engine: &dyn Engine, passes: usize) -> Duration {
    // All sides are called through a table that the compiler cannot see
    // through, as a library is.
    let engine = black_box(engine);
    let began = clock::now();
    for _ in 0..passes {
        work.pass(engine);
    }
    clock::now() - began
}

fn sorted(numbers: impl Iterator<Item = f64>) -> Vec<f64> {
    let mut sorted: Vec<f64> = numbers.collect();
    sorted.sort_by(f64::total_cmp);
    sorted
}

/// The number below which about this share of the sorted numbers lies.
fn at_share(sorted: &[f64], share: f64) -> f64 {
    let last = sorted.len() - 1;
    sorted[(share * last as f64).round() as usize]
}

#[cfg(test)]
mod tests {
    use super::*;

    #[test]
    fn shares_of_sorted_numbers() {
        let numbers = sorted((0..=10).rev().map(f64::from));
        assert_eq!(at_share(&numbers, 0.1), 1.0);
        assert_eq!(at_share(&numbers, 0.5), 5.0);
        assert_eq!(at_share(&numbers, 0.9), 9.0);
        assert_eq!(at_share(&[7.0], 0.9), 7.0);
    }

    fn rounds(times: &[(f64, f64)]) -> Rounds {
        Rounds(
            times
                .iter()
                .map(|&(first, second)| vec![first, second])
                .collect(),
        )
    }

    /// A machine that slows down by half in the middle changes no ratio.
    #[test]
    fn the_ratio_is_that_of_neighbours() {
        let times = [(10.0, 12.0), (10.0, 12.0), (20.0, 24.0), (20.0, 24.0)];
        let ratio = rounds(&times).ratio(1, 0);
        assert_eq!((ratio.low, ratio.median, ratio.high), (1.2, 1.2, 1.2));
    }

    #[test]
    fn one_odd_round_does_not_move_the_median() {
        let mut times = vec![(10.0, 10.0); 20];
        times[3] = (10.0, 1_000.0);
        assert_eq!(rounds(&times).ratio(1, 0).median, 1.0);
    }

    #[test]
    fn the_best_is_the_least() {
        let times = rounds(&[(3.0, 9.0), (2.0, 8.0), (4.0, 7.0)]);
        assert_eq!((times.best(0), times.best(1)), (2.0, 7.0));
    }
}
