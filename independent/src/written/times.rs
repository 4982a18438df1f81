//! Conversions.

use super::*;

pub fn all() -> Vec<Written> {
    TIMES.map(time).into()
}

const DOWN: u8 = 0;
const UP: u8 = 1;

/// Milliseconds, tick length, rounding, refusal, ticks.
type Time = (u32, u32, u8, u64, u64);

const TIMES: [Time; 27] = [
    (250, 100, DOWN, 0, 2),
    (250, 100, UP, 0, 3),
    (300, 100, DOWN, 0, 3),
    (300, 100, UP, 0, 3),
    (0, 100, DOWN, 0, 0),
    (0, 100, UP, 0, 0),
    (100_001, 100, DOWN, 0, 1_000),
    (100_001, 100, UP, 19, 0),
    (100_000, 100, UP, 0, 1_000),
    (99_901, 100, UP, 0, 1_000),
    (99_900, 100, UP, 0, 999),
    (100_099, 100, DOWN, 0, 1_000),
    (100_100, 100, DOWN, 19, 0),
    (1, 100, UP, 0, 1),
    (99, 100, DOWN, 0, 0),
    (1_000, 1, UP, 0, 1_000),
    (1_001, 1, DOWN, 19, 0),
    (0, 0, DOWN, 18, 0),
    (250, 0, UP, 18, 0),
    (u32::MAX, 1, DOWN, 19, 0),
    (u32::MAX, u32::MAX, UP, 0, 1),
    (u32::MAX - 1, u32::MAX, DOWN, 0, 0),
    (u32::MAX - 1, u32::MAX, UP, 0, 1),
    // 4,294,967 x 1,000 is 295 below the largest number of 32 bits.
    (u32::MAX, 4_294_967, DOWN, 0, 1_000),
    (u32::MAX, 4_294_967, UP, 19, 0),
    // Anything but 0 means up.
    (250, 100, 2, 0, 3),
    (250, 100, 255, 0, 3),
];

fn time((milliseconds, tick_length, up, refusal, ticks): Time) -> Written {
    let call = Call::Ticks {
        milliseconds,
        tick_length,
        up,
    };
    let name = format!("{milliseconds} ms at {tick_length}, rounding {up}");
    written(&name, call, refusal | ticks << 8, vec![], vec![])
}
