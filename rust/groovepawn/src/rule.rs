//! The rules of a policy, as they stand in its file.

/// Where a rule leads.
#[derive(Clone, Copy, Debug, PartialEq, Eq)]
pub enum Target {
    /// The location of this number.
    Location(u8),
    /// The violation.
    Violation,
}

/// What a rule asks of one clock.
#[derive(Clone, Copy, Debug, PartialEq, Eq)]
pub struct Bounds {
    /// The clock is at least so much.
    pub low: u16,
    /// It is at most so much, if there is an upper bound.
    pub high: Option<u16>,
}

impl Bounds {
    /// Whether it asks anything at all.
    pub fn is_bound(self) -> bool {
        self.low > 0 || self.high.is_some()
    }
}

/// One rule. Masks have bit 0 for the first signal or clock of its section.
#[derive(Clone, Debug, PartialEq, Eq)]
pub struct Rule {
    /// The location that it belongs to.
    pub source: u8,
    /// The inputs that it asks about, and which of them must be on.
    pub input_care: u8,
    /// See `input_care`.
    pub input_value: u8,
    /// The outputs that it asks about, and which of them must be on.
    pub output_care: u8,
    /// See `output_care`.
    pub output_value: u8,
    /// The clocks that go to 0.
    pub resets: u8,
    /// Where it leads.
    pub target: Target,
    /// What it asks of each clock.
    pub bounds: Vec<Bounds>,
}

/// How many bytes a rule has before its bounds, and for each clock.
pub(crate) const HEAD: usize = 7;
pub(crate) const BOUNDS: usize = 4;

const VIOLATION: u8 = 255;
const NO_UPPER_BOUND: u16 = 65_535;

impl Rule {
    /// The rule of these bytes, of a file that passed its check.
    pub(crate) fn of_bytes(bytes: &[u8]) -> Rule {
        let (head, bounds) = bytes.split_at(HEAD);
        Rule {
            source: head[0],
            input_care: head[1],
            input_value: head[2],
            output_care: head[3],
            output_value: head[4],
            resets: head[5],
            target: match head[6] {
                VIOLATION => Target::Violation,
                location => Target::Location(location),
            },
            bounds: bounds.chunks_exact(BOUNDS).map(Bounds::of_bytes).collect(),
        }
    }
}

impl Bounds {
    fn of_bytes(bytes: &[u8]) -> Bounds {
        let number = |at: usize| u16::from_be_bytes([bytes[at], bytes[at + 1]]);
        let high = number(2);
        Bounds {
            low: number(0),
            high: (high != NO_UPPER_BOUND).then_some(high),
        }
    }
}
