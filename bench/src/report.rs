//! The table.

use crate::measure::{Ratio, Rounds};

/// The sides of a row, in the order in which they are measured.
pub const PLAIN: usize = 0;
pub const LIBRARY: usize = 1;
pub const MAKER: usize = 2;

/// A ratio to the plain program above this is marked.
const COMPANY_TO_KEEP: f64 = 1.3;

pub fn heading(second: &str) -> String {
    format!(
        "{:<48} {:>12} {:>12} {:>12} {:>6}  {:<12} {:>6} {:>13}",
        "what",
        "plain ns",
        "maker ns",
        format!("{second} ns"),
        "plain",
        "10% to 90%",
        "maker",
        "a second",
    )
}

/// `limit` is what the library may take of the time of the maker's program; none
/// where that has no such function.
pub fn row(name: &str, rounds: &Rounds, limit: Option<f64>) -> String {
    let Ratio { low, median, high } = rounds.ratio(LIBRARY, PLAIN);
    let against = limit.map(|_| rounds.best(LIBRARY) / rounds.best(MAKER));
    let maker = limit.map(|_| nanoseconds(rounds.median(MAKER)));
    let row = format!(
        "{name:<48} {:>12} {:>12} {:>12} {median:>6.2}  {:<12} {:>6} {:>13}",
        nanoseconds(rounds.median(PLAIN)),
        maker.unwrap_or("-".into()),
        nanoseconds(rounds.median(LIBRARY)),
        format!("{low:.2} to {high:.2}"),
        against.map_or("-".into(), |ratio| format!("{ratio:.2}")),
        grouped(1e9 / rounds.median(LIBRARY)),
    );
    let above_plain = above(median, Some(COMPANY_TO_KEEP), "plain");
    let above_maker = against.map_or(String::new(), |ratio| above(ratio, limit, "maker"));
    row + &above_plain + &above_maker
}

fn above(ratio: f64, limit: Option<f64>, side: &str) -> String {
    match limit {
        Some(limit) if ratio > limit => format!("  above {limit} of {side}"),
        _ => String::new(),
    }
}

/// One digit behind the point only where it says something.
fn nanoseconds(number: f64) -> String {
    match number < 1_000.0 {
        true => format!("{number:.1}"),
        false => grouped(number),
    }
}

/// A whole number with a comma after each three digits.
fn grouped(number: f64) -> String {
    let digits = format!("{number:.0}");
    let mut text = String::new();
    for (place, digit) in digits.chars().enumerate() {
        if place > 0 && (digits.len() - place).is_multiple_of(3) {
            text.push(',');
        }
        text.push(digit);
    }
    text
}

#[cfg(test)]
mod tests {
    use super::*;

    #[test]
    fn digits_are_grouped_from_the_right() {
        assert_eq!(grouped(7.0), "7");
        assert_eq!(grouped(999.4), "999");
        assert_eq!(grouped(1_000.0), "1,000");
        assert_eq!(grouped(12_345_678.0), "12,345,678");
    }

    #[test]
    fn only_a_ratio_above_its_limit_is_marked() {
        let rounds = |library| Rounds::of_one(vec![20.0, library, 20.0]);
        assert!(!row("work", &rounds(22.0), Some(1.1)).contains("above"));
        assert!(row("work", &rounds(23.0), Some(1.1)).ends_with("above 1.1 of maker"));
        assert!(row("work", &rounds(27.0), None).ends_with("above 1.3 of plain"));
    }
}
