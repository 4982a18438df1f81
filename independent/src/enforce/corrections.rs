//! Which correction comes first.

use crate::events::Values;
use crate::policy::MAX_SIGNALS;
use std::cmp::Ordering;

/// How many bits each number below 16 has.
const BITS: [u8; 16] = [0, 1, 1, 2, 1, 2, 2, 3, 1, 2, 2, 3, 2, 3, 3, 4];

/// The one of `choices` that comes first by `order`. What is wanted is that
/// one if it is a choice at all.
pub fn nearest(wanted: u8, choices: Values) -> Option<u8> {
    (0..16u8)
        .filter(|value| choices >> value & 1 == 1)
        .min_by(|&one, &other| order(wanted, one, other))
}

/// Which of two corrections comes first: the one with fewer bits different
/// from `wanted`; of two equally near, at the first listed signal in which
/// they differ, the one that leaves that signal as read.
fn order(wanted: u8, one: u8, other: u8) -> Ordering {
    let distance = |value: u8| BITS[usize::from(value ^ wanted)];
    let by_distance = distance(one).cmp(&distance(other));
    (0..MAX_SIGNALS).fold(by_distance, |so_far, signal| {
        let bit = |value: u8| value >> signal & 1;
        so_far.then(match (bit(one) == bit(wanted), bit(other) == bit(wanted)) {
            (true, false) => Ordering::Less,
            (false, true) => Ordering::Greater,
            // A signal has two values, so the two corrections agree in it.
            (true, true) | (false, false) => Ordering::Equal,
        })
    })
}

#[cfg(test)]
mod tests {
    use super::*;

    #[test]
    fn the_bit_table_counts_bits() {
        for (value, &bits) in BITS.iter().enumerate() {
            assert_eq!(u32::from(bits), (value as u32).count_ones());
        }
    }

    #[test]
    fn nearest_prefers_few_bits_then_the_first_signals_kept() {
        assert_eq!(nearest(0b0011, 0xFFFF), Some(0b0011));
        // 0 and 3 from {1, 2}: both one bit away.
        assert_eq!(nearest(0, 0b0110), Some(2));
        assert_eq!(nearest(3, 0b0110), Some(1));
        // 0 from {3, 5, 9, 6}: two bits each, and only 6 keeps the first.
        assert_eq!(nearest(0, 1 << 3 | 1 << 5 | 1 << 9 | 1 << 6), Some(6));
        // 5 from {3, 15}: 3 changes the signals 1 and 2, 15 changes 1 and 3.
        assert_eq!(nearest(5, 1 << 3 | 1 << 15), Some(15));
        // 7 from {0, 15}: three bits against one.
        assert_eq!(nearest(7, 1 | 1 << 15), Some(15));
        assert_eq!(nearest(7, 0), None);
    }

    /// No two tie, what is wanted comes first, and the order is one.
    #[test]
    fn the_corrections_of_each_wanted_value_stand_in_a_row() {
        for wanted in 0..16 {
            let mut row: Vec<u8> = (0..16).collect();
            row.sort_by(|&one, &other| order(wanted, one, other));
            assert_eq!(row[0], wanted);
            assert_eq!(row[15], 15 - wanted);
            for (place, &one) in row.iter().enumerate() {
                for &other in &row[place + 1..] {
                    assert_eq!(order(wanted, one, other), Ordering::Less);
                    assert_eq!(order(wanted, other, one), Ordering::Greater);
                }
            }
        }
    }
}
