//! The rule index: for each location the number of its first rule and how many
//! rules it has.

use crate::basis::Basis;
use crate::enforce;
use crate::parse;
use crate::policy::{Policy, MAX_LOCATIONS};
use crate::refusal::Refusal;

/// Two numbers for each location that there can be.
pub const INDEX_LENGTH: usize = 2 * MAX_LOCATIONS;

/// What a half goes by that is lent an index.
pub type Indexed<'a> = (Basis<'a>, &'a [u16]);

/// "The first is always the count of rules with a lower source, also for a
/// location without rules, whose number is 0. An index has 64 entries, 0 and 0
/// past the locations."
pub fn index_of(policy: &Policy) -> [u16; INDEX_LENGTH] {
    let mut index = [0; INDEX_LENGTH];
    for (location, entry) in index.chunks_mut(2).enumerate().take(policy.locations()) {
        let sources = || policy.rules.iter().map(|rule| usize::from(rule.source));
        entry[0] = sources().filter(|&source| source < location).count() as u16;
        entry[1] = sources().filter(|&source| source == location).count() as u16;
    }
    index
}

/// Writes the index of a file; what is lent past it stays.
pub fn index(file: &[u8], index: &mut [u16]) -> Result<(), Refusal> {
    let policy = parse::check(file)?;
    match index.get_mut(..INDEX_LENGTH) {
        Some(entries) => entries.copy_from_slice(&index_of(&policy)),
        None => return Err(Refusal::SliceTooShort),
    }
    Ok(())
}

/// The input half; an index that is not that of the file is refused.
pub fn input_half(indexed: Indexed, state: &[u16], x: u8) -> Result<u8, Refusal> {
    enforce::input_half(checked(indexed)?, state, x)
}

/// The output half likewise.
pub fn output_half(indexed: Indexed, state: &mut [u16], x: u8, y: u8) -> Result<u8, Refusal> {
    enforce::output_half(checked(indexed)?, state, x, y)
}

/// 22 and 1 to 9 come before 28, and all others after it.
fn checked((basis, index): Indexed) -> Result<Basis, Refusal> {
    let (_, policy) = enforce::read(basis)?;
    match *index == index_of(&policy) {
        true => Ok(basis),
        false => Err(Refusal::WrongIndex),
    }
}

#[cfg(test)]
mod tests {
    use super::*;
    use crate::policies;
    use crate::random::Random;

    /// The rules from the first on, as many as the number says, are those of
    /// the location, and no other rule is.
    #[test]
    fn an_entry_names_exactly_the_rules_of_its_location() {
        let mut random = Random::new(101);
        let (mut empty, mut several) = (0, 0);
        for _ in 0..1_000 {
            let policy = policies::any(&mut random);
            let index = index_of(&policy);
            for (location, entry) in index.chunks(2).enumerate() {
                let (first, count) = (usize::from(entry[0]), usize::from(entry[1]));
                if location >= policy.locations() {
                    assert_eq!((first, count), (0, 0));
                    continue;
                }
                let is_own = |rule: &crate::policy::Rule| usize::from(rule.source) == location;
                assert!(policy.rules[first..first + count].iter().all(is_own));
                assert_eq!(
                    policy.rules.iter().filter(|rule| is_own(rule)).count(),
                    count
                );
                let lower = |rule: &crate::policy::Rule| usize::from(rule.source) < location;
                assert!(policy.rules[..first].iter().all(lower));
                empty += usize::from(count == 0);
                several += usize::from(count > 1);
            }
        }
        assert!(empty > 300 && several > 300, "{empty}, {several}");
    }
}
