//! Milliseconds into ticks.

use crate::refusal::Refusal;

const MAX_TICKS: u64 = 1_000;

#[derive(Clone, Copy, Debug, PartialEq, Eq)]
pub enum Rounding {
    Down,
    Up,
}

/// Worked in 64 bits, in which nothing here can pass the end.
pub fn ticks(milliseconds: u32, tick_length: u32, rounding: Rounding) -> Result<u16, Refusal> {
    if tick_length == 0 {
        return Err(Refusal::TickLengthZero);
    }
    let (time, length) = (u64::from(milliseconds), u64::from(tick_length));
    let added = match rounding {
        Rounding::Down => 0,
        Rounding::Up => length - 1,
    };
    let count = (time + added) / length;
    if count > MAX_TICKS {
        return Err(Refusal::TooManyTicks);
    }
    Ok(count as u16)
}

#[cfg(test)]
mod tests {
    use super::*;
    use crate::random::Random;

    #[test]
    fn ticks_differ_from_the_time_by_less_than_one_tick() {
        let mut random = Random::new(61);
        for _ in 0..20_000 {
            let length = (random.next() >> (32 + random.below(32))) as u32;
            let time = (random.next() >> (32 + random.below(32))) as u32;
            for rounding in [Rounding::Down, Rounding::Up] {
                let Ok(count) = ticks(time, length, rounding) else {
                    continue;
                };
                let made = i64::from(count) * i64::from(length);
                let difference = i64::from(time) - made;
                assert!(difference.abs() < i64::from(length));
                let right_way = match rounding {
                    Rounding::Down => difference >= 0,
                    Rounding::Up => difference <= 0,
                };
                assert!(right_way);
            }
        }
    }
}
