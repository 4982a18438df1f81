//! The check of a file, from left to right: refusals 1 to 9.

use super::policy::*;
use super::reading::Reading;
use super::refusal::Refusal;
use super::rule::{Condition, Rule, NO_UPPER_BOUND, VIOLATION};
use std::ops::RangeInclusive;

impl<'a> Policy<'a> {
    pub fn check(file: &'a [u8]) -> Result<Policy<'a>, Refusal> {
        let mut rest = Rest(file);
        let inputs = rest.section(0..=MAX_SIGNALS, 1)?;
        check_tags(inputs, &[])?;
        let outputs = rest.section(0..=MAX_SIGNALS, 1)?;
        check_tags(outputs, inputs)?;
        let (clocks, ceilings) = check_ceilings(rest.section(0..=MAX_CLOCKS, 2)?)?;
        let must_leave = rest.section(1..=MAX_LOCATIONS, 1)?;
        check_locations(must_leave)?;
        let locations = must_leave.len();
        let rules = rest.long_section(0..=MAX_RULES, rule_length(clocks))?;
        let policy = Policy {
            inputs,
            outputs,
            clocks,
            ceilings,
            locations,
            must_leave,
            rules: Rules::new(rules, clocks),
            states: count_states(locations, &ceilings),
            reading: Reading::AtStart,
        };
        check_rules(&policy)?;
        if !rest.0.is_empty() {
            return Err(Refusal::LeftOver);
        }
        if policy.states > MAX_STATES {
            return Err(Refusal::TooManyStates);
        }
        Ok(policy)
    }
}

/// What of the file has not been read yet.
struct Rest<'a>(&'a [u8]);

impl<'a> Rest<'a> {
    fn take(&mut self, length: usize) -> Result<&'a [u8], Refusal> {
        let (taken, rest) = self.0.split_at_checked(length).ok_or(Refusal::CutShort)?;
        self.0 = rest;
        Ok(taken)
    }

    /// A section after a count of one byte.
    fn section(&mut self, limits: RangeInclusive<usize>, item: usize) -> Result<&'a [u8], Refusal> {
        let count = usize::from(self.take(1)?[0]);
        self.items(count, limits, item)
    }

    /// A section after a count of two bytes.
    fn long_section(
        &mut self,
        limits: RangeInclusive<usize>,
        item: usize,
    ) -> Result<&'a [u8], Refusal> {
        let bytes = self.take(2)?;
        let count = usize::from(u16::from_be_bytes([bytes[0], bytes[1]]));
        self.items(count, limits, item)
    }

    fn items(
        &mut self,
        count: usize,
        limits: RangeInclusive<usize>,
        item: usize,
    ) -> Result<&'a [u8], Refusal> {
        if !limits.contains(&count) {
            return Err(Refusal::CountOutsideLimits);
        }
        self.take(count * item)
    }
}

fn check_tags(tags: &[u8], earlier: &[u8]) -> Result<(), Refusal> {
    for (place, tag) in tags.iter().enumerate() {
        let repeated = earlier.contains(tag) || tags[..place].contains(tag);
        if repeated || !tag.is_ascii_uppercase() {
            return Err(Refusal::BadTag);
        }
    }
    Ok(())
}

fn check_ceilings(section: &[u8]) -> Result<(usize, [u16; MAX_CLOCKS]), Refusal> {
    let (pairs, _) = section.as_chunks();
    let mut ceilings = [0; MAX_CLOCKS];
    for (ceiling, &pair) in ceilings.iter_mut().zip(pairs) {
        *ceiling = u16::from_be_bytes(pair);
        if *ceiling == 0 || *ceiling > MAX_CEILING {
            return Err(Refusal::BadCeiling);
        }
    }
    Ok((pairs.len(), ceilings))
}

fn check_locations(bytes: &[u8]) -> Result<(), Refusal> {
    match bytes.iter().any(|&byte| byte > 1) {
        true => Err(Refusal::BadLocationByte),
        false => Ok(()),
    }
}

/// At most 64 x 1,002^4, which fits.
pub fn count_states(locations: usize, ceilings: &[u16; MAX_CLOCKS]) -> usize {
    ceilings.iter().fold(locations, |states, &ceiling| {
        states * (usize::from(ceiling) + 1)
    })
}

fn check_rules(policy: &Policy) -> Result<(), Refusal> {
    let mut least_source = 0;
    for rule in policy.rules.iter() {
        if rule.source() < least_source || !head_fits(policy, rule) {
            return Err(Refusal::BadRule);
        }
        if !bounds_fit(policy, rule) {
            return Err(Refusal::BadBounds);
        }
        least_source = rule.source();
    }
    Ok(())
}

fn head_fits(policy: &Policy, rule: Rule) -> bool {
    let is_location = |number: u8| usize::from(number) < policy.locations;
    is_location(rule.source())
        && condition_fits(rule.input(), policy.input_values())
        && condition_fits(rule.output(), policy.output_values())
        && rule.reset() < 1 << policy.clocks
        && (is_location(rule.target()) || rule.target() == VIOLATION)
}

fn condition_fits(condition: Condition, values: u8) -> bool {
    condition.care < values && condition.value & !condition.care == 0
}

fn bounds_fit(policy: &Policy, rule: Rule) -> bool {
    rule.bounds().zip(policy.ceilings).all(|(bound, ceiling)| {
        bound.low <= bound.high
            && bound.low <= ceiling
            && (bound.high < ceiling || bound.high == NO_UPPER_BOUND)
    })
}
