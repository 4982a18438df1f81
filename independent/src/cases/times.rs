//! Times to be converted.

use crate::call::Call;
use crate::random::Random;

pub fn around_ticks(random: &mut Random) -> Vec<Call> {
    (0..8).map(|_| ticks_call(random)).collect()
}

fn ticks_call(random: &mut Random) -> Call {
    let tick_length = some_number(random);
    let milliseconds = match random.below(3) {
        0 => some_number(random),
        // Near a whole number of ticks, and near the limit.
        1 => {
            let ticks = random.between(0, 1_002) as u32;
            near(random, tick_length.saturating_mul(ticks))
        }
        _ => near(random, tick_length.saturating_mul(1_000)),
    };
    Call::Ticks {
        milliseconds,
        tick_length,
        up: random.pick(&[0, 1, 1, 2, 255]),
    }
}

/// A number of any magnitude, 0 and the largest included.
fn some_number(random: &mut Random) -> u32 {
    match random.below(20) {
        0 => 0,
        1 => u32::MAX,
        2 => 100,
        _ => (random.next() as u32) >> random.below(32),
    }
}

fn near(random: &mut Random, number: u32) -> u32 {
    match random.below(3) {
        0 => number.saturating_sub(1),
        1 => number,
        _ => number.saturating_add(1),
    }
}
