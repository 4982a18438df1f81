//! What a policy file says, once it has been read, and how it is written.

pub const MAX_SIGNALS: usize = 4;
pub const MAX_CLOCKS: usize = 4;
pub const MAX_CEILING: u16 = 1_001;
pub const MAX_LOCATIONS: usize = 64;
pub const MAX_RULES: usize = 256;
pub const MAX_STATES: u64 = 65_536;

/// The target that stands for the violation.
pub const VIOLATION: u8 = 255;
/// The high that stands for "no upper bound".
pub const NO_UPPER_BOUND: u16 = 65_535;

/// The bits a rule looks at, and what they must be.
#[derive(Clone, Copy, Debug, PartialEq, Eq)]
pub struct Condition {
    pub care: u8,
    pub value: u8,
}

impl Condition {
    pub const ANY: Condition = Condition { care: 0, value: 0 };

    pub fn agrees(self, bits: u8) -> bool {
        bits & self.care == self.value
    }
}

/// The values of one clock a rule admits.
#[derive(Clone, Copy, Debug, PartialEq, Eq)]
pub struct Bound {
    pub low: u16,
    pub high: u16,
}

impl Bound {
    pub const OPEN: Bound = Bound {
        low: 0,
        high: NO_UPPER_BOUND,
    };

    /// Takes a clock that never stops counting, hence the 64 bits.
    pub fn holds(self, clock: u64) -> bool {
        let below = self.high == NO_UPPER_BOUND || clock <= u64::from(self.high);
        below && clock >= u64::from(self.low)
    }
}

#[derive(Clone, Debug, PartialEq, Eq)]
pub struct Rule {
    pub source: u8,
    pub input: Condition,
    pub output: Condition,
    pub reset: u8,
    pub target: u8,
    /// Unused clocks have the open bound.
    pub bounds: [Bound; MAX_CLOCKS],
}

#[derive(Clone, Debug, PartialEq, Eq)]
pub struct Policy {
    pub inputs: Vec<u8>,
    pub outputs: Vec<u8>,
    pub ceilings: Vec<u16>,
    /// For each location, whether it must be left; in the others a stream may
    /// rest.
    pub must_leave: Vec<bool>,
    pub rules: Vec<Rule>,
}

/// A mask with the lowest `count` bits set.
pub fn lowest_bits(count: usize) -> u8 {
    (0..count).map(|bit| 1 << bit).sum()
}

impl Policy {
    pub fn locations(&self) -> usize {
        self.must_leave.len()
    }

    pub fn rests_in(&self, location: u8) -> bool {
        !self.must_leave[usize::from(location)]
    }

    /// Locations times the product of (ceiling + 1). At most
    /// 64 x 1,002^4, which 64 bits hold.
    pub fn states(&self) -> u64 {
        let per_location: u64 = self.ceilings.iter().map(|&c| u64::from(c) + 1).product();
        self.locations() as u64 * per_location
    }

    pub fn input_mask(&self) -> u8 {
        lowest_bits(self.inputs.len())
    }

    pub fn output_mask(&self) -> u8 {
        lowest_bits(self.outputs.len())
    }

    pub fn clock_mask(&self) -> u8 {
        lowest_bits(self.ceilings.len())
    }

    /// Every bit an event may have.
    pub fn event_mask(&self) -> u8 {
        self.input_mask() | self.output_mask() << 4
    }

    pub fn rule_length(&self) -> usize {
        7 + 4 * self.ceilings.len()
    }

    /// The bytes of this policy.
    pub fn encode(&self) -> Vec<u8> {
        let mut file = Vec::new();
        put_counted(&mut file, &self.inputs);
        put_counted(&mut file, &self.outputs);
        file.push(self.ceilings.len() as u8);
        for &ceiling in &self.ceilings {
            put_number(&mut file, ceiling);
        }
        let location_bytes: Vec<u8> = self.must_leave.iter().map(|&left| left.into()).collect();
        put_counted(&mut file, &location_bytes);
        put_number(&mut file, self.rules.len() as u16);
        for rule in &self.rules {
            self.put_rule(&mut file, rule);
        }
        file
    }

    fn put_rule(&self, file: &mut Vec<u8>, rule: &Rule) {
        file.extend([
            rule.source,
            rule.input.care,
            rule.input.value,
            rule.output.care,
            rule.output.value,
            rule.reset,
            rule.target,
        ]);
        for bound in &rule.bounds[..self.ceilings.len()] {
            put_number(file, bound.low);
            put_number(file, bound.high);
        }
    }
}

fn put_counted(file: &mut Vec<u8>, section: &[u8]) {
    file.push(section.len() as u8);
    file.extend(section);
}

fn put_number(file: &mut Vec<u8>, number: u16) {
    file.extend(number.to_be_bytes());
}

#[cfg(test)]
mod tests {
    use super::*;

    #[test]
    fn no_upper_bound_holds_beyond_sixteen_bits() {
        assert!(Bound::OPEN.holds(65_536));
        assert!(Bound::OPEN.holds(u64::MAX));
        assert!(!Bound { low: 0, high: 2 }.holds(65_538));
        assert!(!Bound {
            low: 3,
            high: NO_UPPER_BOUND
        }
        .holds(2));
    }

    #[test]
    fn the_largest_count_of_states_does_not_wrap() {
        let policy = Policy {
            inputs: vec![],
            outputs: vec![],
            ceilings: vec![1_001; 4],
            must_leave: vec![false; 64],
            rules: vec![],
        };
        assert_eq!(policy.states(), 64_513_538_049_024);
    }
}
