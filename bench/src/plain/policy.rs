//! A checked policy: what its sections hold, and its rules as the part of
//! the file that they are.

use super::reading::Reading;
use super::refusal::Refusal;
use super::rule::Rule;

pub const MAX_SIGNALS: usize = 4;
pub const MAX_CLOCKS: usize = 4;
pub const MAX_CEILING: u16 = 1_001;
pub const MAX_LOCATIONS: usize = 64;
pub const MAX_RULES: usize = 256;
pub const MAX_STATES: usize = 65_536;

/// The bytes of a rule before its bounds, and those of one bound.
pub const HEAD_LENGTH: usize = 7;
pub const BOUND_LENGTH: usize = 4;

pub struct Policy<'a> {
    /// The tags.
    pub inputs: &'a [u8],
    pub outputs: &'a [u8],
    pub clocks: usize,
    /// The ceiling of an unused clock is 0, so that it never leaves 0.
    pub ceilings: [u16; MAX_CLOCKS],
    pub locations: usize,
    /// One byte for each location: 1 if it must be left, 0 if it may rest.
    pub must_leave: &'a [u8],
    pub rules: Rules<'a>,
    pub states: usize,
    pub reading: Reading,
}

impl<'a> Policy<'a> {
    /// The policy under the reading of this number, which is asked about
    /// before the file.
    pub fn read(reading: u8, file: &'a [u8]) -> Result<Policy<'a>, Refusal> {
        let reading = Reading::named(reading)?;
        let policy = Policy::check(file)?;
        Ok(Policy { reading, ..policy })
    }

    pub fn input_values(&self) -> u8 {
        1 << self.inputs.len()
    }

    pub fn output_values(&self) -> u8 {
        1 << self.outputs.len()
    }
}

/// Some rules that stand together in the file.
#[derive(Clone, Copy)]
pub struct Rules<'a> {
    bytes: &'a [u8],
    rule_length: usize,
}

pub fn rule_length(clocks: usize) -> usize {
    HEAD_LENGTH + BOUND_LENGTH * clocks
}

impl<'a> Rules<'a> {
    /// `bytes` are whole rules with a bound for each of the clocks.
    pub fn new(bytes: &'a [u8], clocks: usize) -> Rules<'a> {
        Rules {
            bytes,
            rule_length: rule_length(clocks),
        }
    }

    /// One after the other. (`chunks_exact` would divide to begin with, which
    /// a search that ends at the first rules feels.)
    pub fn iter(self) -> impl Iterator<Item = Rule<'a>> {
        let mut rest = self.bytes;
        std::iter::from_fn(move || {
            let (rule, after) = rest.split_at_checked(self.rule_length)?;
            rest = after;
            Some(Rule::new(rule))
        })
    }

    /// The rules of one location. Sources never fall, so they stand together.
    pub fn of(self, location: u8) -> Rules<'a> {
        let before = self.count_while(|source| source < location);
        let rest = self.after(before);
        let own = rest.count_while(|source| source == location);
        Rules {
            bytes: &rest.bytes[..own * self.rule_length],
            ..self
        }
    }

    /// The rules of each location, found in one pass.
    pub fn by_location(self) -> [Rules<'a>; MAX_LOCATIONS] {
        let mut rest = self;
        std::array::from_fn(|location| {
            let own = rest.count_while(|source| usize::from(source) == location);
            let (bytes, after) = rest.bytes.split_at(own * self.rule_length);
            rest.bytes = after;
            Rules { bytes, ..self }
        })
    }

    fn count_while(self, holds: impl Fn(u8) -> bool) -> usize {
        self.iter().take_while(|rule| holds(rule.source())).count()
    }

    fn after(self, count: usize) -> Rules<'a> {
        Rules {
            bytes: &self.bytes[count * self.rule_length..],
            ..self
        }
    }
}
