//! One rule, read where it stands in the file.

use super::policy::{BOUND_LENGTH, HEAD_LENGTH, MAX_CLOCKS};

/// The target that stands for the violation.
pub const VIOLATION: u8 = 255;

/// The high that stands for "no upper bound". No clock reaches it, so it
/// needs no case of its own when a bound is tested.
pub const NO_UPPER_BOUND: u16 = u16::MAX;

#[derive(Clone, Copy)]
pub struct Rule<'a> {
    head: &'a [u8; HEAD_LENGTH],
    bounds: &'a [u8],
}

/// The bits a rule looks at, and what they must be.
#[derive(Clone, Copy)]
pub struct Condition {
    pub care: u8,
    pub value: u8,
}

impl Condition {
    pub fn agrees(self, bits: u8) -> bool {
        bits & self.care == self.value
    }

    /// The values below 16 that agree, as a set: for each of four bits those
    /// in which it is 1, or those in which it is 0.
    pub fn values(self) -> u16 {
        let ones: [u16; 4] = [0xAAAA, 0xCCCC, 0xF0F0, 0xFF00];
        let column = |(bit, ones): (usize, u16)| match (self.care >> bit & 1, self.value >> bit & 1)
        {
            (0, _) => u16::MAX,
            (_, 1) => ones,
            _ => !ones,
        };
        ones.into_iter()
            .enumerate()
            .map(column)
            .fold(u16::MAX, |all, column| all & column)
    }

    pub fn contradicts(self, other: Condition) -> bool {
        self.care & other.care & (self.value ^ other.value) != 0
    }
}

/// The values of one clock that a rule admits.
#[derive(Clone, Copy)]
pub struct Bound {
    pub low: u16,
    pub high: u16,
}

impl Bound {
    fn new(bytes: &[u8; BOUND_LENGTH]) -> Bound {
        let [low_high, low_low, high_high, high_low] = *bytes;
        Bound {
            low: u16::from_be_bytes([low_high, low_low]),
            high: u16::from_be_bytes([high_high, high_low]),
        }
    }

    fn holds(self, clock: u16) -> bool {
        self.low <= clock && clock <= self.high
    }
}

impl<'a> Rule<'a> {
    /// `bytes` are a whole rule.
    pub fn new(bytes: &'a [u8]) -> Rule<'a> {
        let (head, bounds) = bytes.split_first_chunk().expect("a rule has a head");
        Rule { head, bounds }
    }

    pub fn source(self) -> u8 {
        self.head[0]
    }

    pub fn input(self) -> Condition {
        Condition {
            care: self.head[1],
            value: self.head[2],
        }
    }

    pub fn output(self) -> Condition {
        Condition {
            care: self.head[3],
            value: self.head[4],
        }
    }

    pub fn reset(self) -> u8 {
        self.head[5]
    }

    pub fn target(self) -> u8 {
        self.head[6]
    }

    pub fn bounds(self) -> impl Iterator<Item = Bound> + 'a {
        let (bounds, _) = self.bounds.as_chunks();
        bounds.iter().map(Bound::new)
    }

    /// The bounds as they stand in the file.
    pub fn bound_bytes(self) -> &'a [u8] {
        self.bounds
    }

    /// Whether the bounds hold.
    pub fn holds(self, clocks: &[u16; MAX_CLOCKS]) -> bool {
        let mut pairs = self.bounds().zip(clocks);
        pairs.all(|(bound, &clock)| bound.holds(clock))
    }

    /// Whether the care bits agree and the bounds hold.
    pub fn admits(self, x: u8, y: u8, clocks: &[u16; MAX_CLOCKS]) -> bool {
        self.input().agrees(x) && self.output().agrees(y) && self.holds(clocks)
    }
}
