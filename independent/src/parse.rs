//! Reads a policy file from left to right; the first thing wrong decides.

use crate::policy::*;
use crate::refusal::Refusal;

/// The bytes not yet consumed.
struct Cursor<'a> {
    rest: &'a [u8],
}

impl<'a> Cursor<'a> {
    /// Consumes `length` bytes, or says that they are not all there.
    fn take(&mut self, length: usize) -> Result<&'a [u8], Refusal> {
        if self.rest.len() < length {
            return Err(Refusal::CutShort);
        }
        let (taken, rest) = self.rest.split_at(length);
        self.rest = rest;
        Ok(taken)
    }

    fn byte(&mut self) -> Result<u8, Refusal> {
        Ok(self.take(1)?[0])
    }

    fn number(&mut self) -> Result<u16, Refusal> {
        let pair = self.take(2)?;
        Ok(u16::from(pair[0]) << 8 | u16::from(pair[1]))
    }

    /// Consumes a section whole: its one-byte count, the limits of the count,
    /// then all the bytes of the section.
    fn section(&mut self, least: usize, most: usize, each: usize) -> Result<Cursor<'a>, Refusal> {
        let count = usize::from(self.byte()?);
        self.items(count, least, most, each)
    }

    /// What follows any count once the count itself has been read.
    fn items(
        &mut self,
        count: usize,
        least: usize,
        most: usize,
        each: usize,
    ) -> Result<Cursor<'a>, Refusal> {
        if count < least || count > most {
            return Err(Refusal::CountOutsideLimits);
        }
        let rest = self.take(count * each)?;
        Ok(Cursor { rest })
    }

    fn is_empty(&self) -> bool {
        self.rest.is_empty()
    }
}

/// Refusals 1 to 9.
pub fn check(file: &[u8]) -> Result<Policy, Refusal> {
    let mut cursor = Cursor { rest: file };
    let inputs = read_tags(&mut cursor, &[])?;
    let outputs = read_tags(&mut cursor, &inputs)?;
    let ceilings = read_ceilings(&mut cursor)?;
    let must_leave = read_locations(&mut cursor)?;
    let mut policy = Policy {
        inputs,
        outputs,
        ceilings,
        must_leave,
        rules: Vec::new(),
    };
    read_rules(&mut cursor, &mut policy)?;
    if !cursor.is_empty() {
        return Err(Refusal::LeftOver);
    }
    if policy.states() > MAX_STATES {
        return Err(Refusal::TooManyStates);
    }
    Ok(policy)
}

fn read_tags(cursor: &mut Cursor, earlier: &[u8]) -> Result<Vec<u8>, Refusal> {
    let section = cursor.section(0, MAX_SIGNALS, 1)?;
    let mut tags: Vec<u8> = Vec::new();
    for &tag in section.rest {
        let repeated = tags.contains(&tag) || earlier.contains(&tag);
        if repeated || !tag.is_ascii_uppercase() {
            return Err(Refusal::BadTag);
        }
        tags.push(tag);
    }
    Ok(tags)
}

fn read_ceilings(cursor: &mut Cursor) -> Result<Vec<u16>, Refusal> {
    let mut section = cursor.section(0, MAX_CLOCKS, 2)?;
    let mut ceilings = Vec::new();
    while !section.is_empty() {
        match section.number()? {
            0 => return Err(Refusal::BadCeiling),
            ceiling if ceiling > MAX_CEILING => return Err(Refusal::BadCeiling),
            ceiling => ceilings.push(ceiling),
        }
    }
    Ok(ceilings)
}

/// A byte of 1 says that the location must be left, 0 that it may rest.
fn read_locations(cursor: &mut Cursor) -> Result<Vec<bool>, Refusal> {
    let section = cursor.section(1, MAX_LOCATIONS, 1)?;
    let must_be_left = |&byte: &u8| match byte {
        0 => Ok(false),
        1 => Ok(true),
        _ => Err(Refusal::BadLocationByte),
    };
    section.rest.iter().map(must_be_left).collect()
}

fn read_rules(cursor: &mut Cursor, policy: &mut Policy) -> Result<(), Refusal> {
    let count = usize::from(cursor.number()?);
    let mut section = cursor.items(count, 0, MAX_RULES, policy.rule_length())?;
    while !section.is_empty() {
        let earlier_source = policy.rules.last().map_or(0, |rule| rule.source);
        let mut rule = read_head(&mut section, policy, earlier_source)?;
        read_bounds(&mut section, &policy.ceilings, &mut rule)?;
        policy.rules.push(rule);
    }
    Ok(())
}

fn read_head(section: &mut Cursor, policy: &Policy, least_source: u8) -> Result<Rule, Refusal> {
    let source = section.byte()?;
    let input = read_condition(section)?;
    let output = read_condition(section)?;
    let reset = section.byte()?;
    let target = section.byte()?;
    let in_order = source >= least_source && usize::from(source) < policy.locations();
    let conditions =
        condition_fits(input, policy.input_mask()) && condition_fits(output, policy.output_mask());
    let resets = reset & !policy.clock_mask() == 0;
    let arrives = target == VIOLATION || usize::from(target) < policy.locations();
    if !(in_order && conditions && resets && arrives) {
        return Err(Refusal::BadRule);
    }
    Ok(Rule {
        source,
        input,
        output,
        reset,
        target,
        bounds: [Bound::OPEN; MAX_CLOCKS],
    })
}

fn read_condition(section: &mut Cursor) -> Result<Condition, Refusal> {
    let care = section.byte()?;
    let value = section.byte()?;
    Ok(Condition { care, value })
}

fn condition_fits(condition: Condition, signals: u8) -> bool {
    condition.care & !signals == 0 && condition.value & !condition.care == 0
}

fn read_bounds(section: &mut Cursor, ceilings: &[u16], rule: &mut Rule) -> Result<(), Refusal> {
    for (bound, &ceiling) in rule.bounds.iter_mut().zip(ceilings) {
        let low = section.number()?;
        let high = section.number()?;
        let upper = high < ceiling || high == NO_UPPER_BOUND;
        if low > high || low > ceiling || !upper {
            return Err(Refusal::BadBounds);
        }
        *bound = Bound { low, high };
    }
    Ok(())
}

#[cfg(test)]
mod tests {
    use super::*;
    use crate::policies;
    use crate::random::Random;

    #[test]
    fn an_accepted_file_is_written_again_byte_for_byte() {
        let mut random = Random::new(11);
        for _ in 0..500 {
            let file = policies::any(&mut random).encode();
            assert_eq!(check(&file).expect("a valid policy").encode(), file);
        }
    }

    #[test]
    fn every_prefix_of_a_valid_file_is_cut_short() {
        let mut random = Random::new(12);
        for _ in 0..40 {
            let file = policies::any(&mut random).encode();
            for length in 0..file.len() {
                assert_eq!(check(&file[..length]), Err(Refusal::CutShort));
            }
        }
    }

    #[test]
    fn the_longest_file_has_the_length_the_paper_names() {
        let rule = Rule {
            source: 0,
            input: Condition::ANY,
            output: Condition::ANY,
            reset: 0,
            target: 0,
            bounds: [Bound::OPEN; MAX_CLOCKS],
        };
        let longest = Policy {
            inputs: b"ABCD".to_vec(),
            outputs: b"EFGH".to_vec(),
            ceilings: vec![1; MAX_CLOCKS],
            must_leave: vec![true; MAX_LOCATIONS],
            rules: vec![rule; MAX_RULES],
        };
        let file = longest.encode();
        assert_eq!(file.len(), 5_974);
        assert_eq!(check(&file), Ok(longest));
    }
}
