//! Texts of policies as people write them: with names, comments, blanks, other
//! orders of conditions, and faults.

mod layout;
mod named;
mod rough;
pub mod spoilt;

use crate::policy::*;
use crate::random::Random;
use layout::laid_out;
use named::Names;

/// A line as its words.
pub type Line = Vec<Vec<u8>>;

/// A text that says what the policy says.
pub fn penned(random: &mut Random, policy: &Policy) -> Vec<u8> {
    let lines = lines_of(random, policy);
    laid_out(random, &lines)
}

/// The same with something wrong in it. By chance nothing may be.
pub fn misspelt(random: &mut Random, policy: &Policy) -> Vec<u8> {
    let mut lines = lines_of(random, policy);
    let mut faults = match random.below(10) {
        0..=7 => 1,
        8 => 2,
        _ => 3,
    };
    let in_bytes = random.percent(20);
    while !in_bytes && faults > 0 {
        spoilt::spoil(random, &mut lines);
        faults -= 1;
    }
    let mut text = laid_out(random, &lines);
    for _ in 0..faults {
        rough::spoil(random, &mut text);
    }
    text
}

fn lines_of(random: &mut Random, policy: &Policy) -> Vec<Line> {
    let names = Names::some(random, policy);
    let mut lines = names.declarations(policy);
    let mut last = None;
    for rule in &policy.rules {
        for location in some_ats(random, last, rule.source) {
            lines.push(line(["at", &names.locations[usize::from(location)]]));
        }
        last = Some(rule.source);
        lines.push(names.rule(random, policy, rule));
    }
    let from = last.map_or(0, usize::from);
    for location in &names.locations[from..] {
        if random.percent(10) {
            lines.push(line(["at", location]));
        }
    }
    lines
}

/// The locations named before a rule of `source`: that one, if it was not named
/// last; now and then once more, and those between, which have no rules.
fn some_ats(random: &mut Random, last: Option<u8>, source: u8) -> Vec<u8> {
    let mut ats = Vec::new();
    if last != Some(source) {
        let from = last.map_or(0, |last| last + 1);
        ats.extend((from..source).filter(|_| random.percent(30)));
        ats.push(source);
    }
    if random.percent(8) {
        ats.push(source);
    }
    ats
}

fn line<const N: usize>(words: [&str; N]) -> Line {
    words.map(|word| word.as_bytes().to_vec()).to_vec()
}

#[cfg(test)]
mod tests {
    use super::*;
    use crate::policies;
    use crate::refusal::Refusal;
    use crate::text;

    #[test]
    fn what_is_penned_reads_back() {
        let mut random = Random::new(31);
        for _ in 0..2_000 {
            let policy = policies::any(&mut random);
            let text = penned(&mut random, &policy);
            let read = text::read_policy(&text).expect("it says what the policy says");
            assert_eq!(read.policy, policy, "{}", String::from_utf8_lossy(&text));
        }
    }

    #[test]
    fn what_is_misspelt_is_mostly_refused_in_every_way() {
        let mut random = Random::new(32);
        let mut seen = [0; 36];
        for _ in 0..20_000 {
            let policy = policies::any(&mut random);
            let text = misspelt(&mut random, &policy);
            let number = text::read_policy(&text).map_or_else(|f| f.refusal.number(), |_| 0);
            seen[usize::from(number)] += 1;
        }
        for refusal in [
            Refusal::CountOutsideLimits,
            Refusal::BadCeiling,
            Refusal::BadBounds,
            Refusal::TooManyStates,
            Refusal::BadWord,
            Refusal::BadName,
            Refusal::NumberTooLarge,
            Refusal::TooMany,
            Refusal::FallingLocation,
        ] {
            let count = seen[usize::from(refusal.number())];
            assert!(count > 50, "{refusal:?} {count}");
        }
        assert!(seen[0] < 8_000, "{seen:?}");
    }
}
