//! A policy as a value, and the bytes of its file.

/// As many states as a policy can have, and as many bytes as its file.
pub const MOST_STATES: usize = 65_536;
pub const LONGEST_FILE: usize = 5_974;

/// As many bytes as the list has of what is struck out of a policy.
pub const LONGEST_LIST: usize = 957;

/// The target that stands for the violation.
pub const VIOLATION: u8 = 255;

/// The bits a rule looks at, and what they must be.
#[derive(Clone, Copy)]
pub struct Condition {
    pub care: u8,
    pub value: u8,
}

impl Condition {
    pub const ANY: Condition = Condition { care: 0, value: 0 };

    /// All four bits must be as given.
    pub const fn value(value: u8) -> Condition {
        Condition {
            care: 0b1111,
            value,
        }
    }

    /// No other of the four bits may be set.
    pub const fn within(bits: u8) -> Condition {
        Condition::clear(!bits & 0b1111)
    }

    /// The given bits must all be set.
    pub const fn set(bits: u8) -> Condition {
        Condition {
            care: bits,
            value: bits,
        }
    }

    /// The given bits must all be clear.
    pub const fn clear(bits: u8) -> Condition {
        Condition {
            care: bits,
            value: 0,
        }
    }
}

/// Low and high.
pub type Bound = (u16, u16);

/// The high that stands for "no upper bound".
pub const NO_UPPER_BOUND: u16 = 65_535;

/// Any clock value.
pub const OPEN: Bound = (0, NO_UPPER_BOUND);

#[derive(Clone)]
pub struct Rule {
    pub source: u8,
    pub input: Condition,
    pub output: Condition,
    pub reset: u8,
    pub target: u8,
    /// One for each clock.
    pub bounds: Vec<Bound>,
}

impl Rule {
    /// Takes every event at any values of so many clocks, and resets none.
    pub fn open(source: u8, target: u8, clocks: usize) -> Rule {
        Rule {
            source,
            input: Condition::ANY,
            output: Condition::ANY,
            reset: 0,
            target,
            bounds: vec![OPEN; clocks],
        }
    }
}

pub struct Policy {
    /// How many; their tags are letters from A on.
    pub inputs: u8,
    pub outputs: u8,
    pub ceilings: Vec<u16>,
    /// One byte each: 1 if it must be left, 0 if it may rest.
    pub locations: Vec<u8>,
    pub rules: Vec<Rule>,
}

impl Policy {
    pub fn encode(&self) -> Vec<u8> {
        let mut file = Vec::new();
        put_tags(&mut file, b'A', self.inputs);
        put_tags(&mut file, b'A' + self.inputs, self.outputs);
        file.push(self.ceilings.len() as u8);
        for ceiling in &self.ceilings {
            file.extend(ceiling.to_be_bytes());
        }
        file.push(self.locations.len() as u8);
        file.extend(&self.locations);
        file.extend((self.rules.len() as u16).to_be_bytes());
        for rule in &self.rules {
            put_rule(&mut file, rule);
        }
        file
    }

    /// Every bit an event may have.
    pub fn event_mask(&self) -> u8 {
        let mask = |signals: u8| (1 << signals) - 1;
        mask(self.inputs) | mask(self.outputs) << 4
    }
}

fn put_tags(file: &mut Vec<u8>, first: u8, count: u8) {
    file.push(count);
    file.extend(first..first + count);
}

fn put_rule(file: &mut Vec<u8>, rule: &Rule) {
    file.extend([
        rule.source,
        rule.input.care,
        rule.input.value,
        rule.output.care,
        rule.output.value,
        rule.reset,
        rule.target,
    ]);
    for (low, high) in &rule.bounds {
        file.extend(low.to_be_bytes());
        file.extend(high.to_be_bytes());
    }
}
