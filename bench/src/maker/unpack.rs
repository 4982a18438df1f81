//! The file, unpacked into structs: refusals 1 to 9, and 22 before them.

use crate::plain::Refusal;

pub const SIGNALS: usize = 4;
pub const CLOCKS: usize = 4;
pub const LOCATIONS: usize = 64;
const RULES: usize = 256;
pub const STATES: usize = 65_536;
const HIGHEST_CEILING: u16 = 1_001;
const NO_UPPER_BOUND: u16 = 65_535;
pub const VIOLATION: u8 = 255;

#[derive(Clone, Copy, Default)]
pub struct Rule {
    pub input_care: u8,
    pub input_value: u8,
    pub output_care: u8,
    pub output_value: u8,
    pub reset: u8,
    pub target: u8,
    pub low: [u16; CLOCKS],
    pub high: [u16; CLOCKS],
}

#[derive(Clone, Copy, Default)]
pub struct Location {
    pub must_leave: bool,
    /// Its rules stand together.
    pub first: u16,
    pub end: u16,
}

pub struct Table {
    /// Whether a clock is read after the tick is counted.
    pub counted: bool,
    pub inputs: usize,
    pub outputs: usize,
    pub clocks: usize,
    pub ceilings: [u16; CLOCKS],
    pub locations: [Location; LOCATIONS],
    pub location_count: usize,
    pub rules: [Rule; RULES],
    pub states: usize,
}

/// Reads the bytes of a file one after the other.
struct Bytes<'a> {
    file: &'a [u8],
    at: usize,
}

impl Bytes<'_> {
    fn byte(&mut self) -> Result<u8, Refusal> {
        let byte = *self.file.get(self.at).ok_or(Refusal::CutShort)?;
        self.at += 1;
        Ok(byte)
    }

    fn pair(&mut self) -> Result<u16, Refusal> {
        Ok(u16::from_be_bytes([self.byte()?, self.byte()?]))
    }

    /// A count, within its limits, of items that are all there.
    fn count(count: usize, least: usize, most: usize) -> Result<usize, Refusal> {
        match least <= count && count <= most {
            true => Ok(count),
            false => Err(Refusal::CountOutsideLimits),
        }
    }

    fn all_there(&self, bytes: usize) -> Result<(), Refusal> {
        match self.file.len() - self.at < bytes {
            true => Err(Refusal::CutShort),
            false => Ok(()),
        }
    }
}

impl Table {
    pub fn empty() -> Box<Table> {
        Box::new(Table {
            counted: false,
            inputs: 0,
            outputs: 0,
            clocks: 0,
            ceilings: [0; CLOCKS],
            locations: [Location::default(); LOCATIONS],
            location_count: 0,
            rules: [Rule::default(); RULES],
            states: 0,
        })
    }

    pub fn unpack(&mut self, reading: u8, file: &[u8]) -> Result<(), Refusal> {
        self.counted = match reading {
            1 => false,
            2 => true,
            _ => return Err(Refusal::UnknownReading),
        };
        let mut bytes = Bytes { file, at: 0 };
        let mut tags = [0; 2 * SIGNALS];
        self.inputs = unpack_tags(&mut bytes, &mut tags, 0)?;
        self.outputs = unpack_tags(&mut bytes, &mut tags, self.inputs)?;
        self.unpack_clocks(&mut bytes)?;
        self.unpack_locations(&mut bytes)?;
        self.unpack_rules(&mut bytes)?;
        if bytes.at < file.len() {
            return Err(Refusal::LeftOver);
        }
        self.states = self.location_count;
        for ceiling in &self.ceilings[..self.clocks] {
            self.states *= usize::from(*ceiling) + 1;
        }
        match self.states > STATES {
            true => Err(Refusal::TooManyStates),
            false => Ok(()),
        }
    }

    fn unpack_clocks(&mut self, bytes: &mut Bytes) -> Result<(), Refusal> {
        self.clocks = Bytes::count(bytes.byte()?.into(), 0, CLOCKS)?;
        bytes.all_there(2 * self.clocks)?;
        self.ceilings = [0; CLOCKS];
        for ceiling in &mut self.ceilings[..self.clocks] {
            *ceiling = bytes.pair()?;
            if *ceiling == 0 || *ceiling > HIGHEST_CEILING {
                return Err(Refusal::BadCeiling);
            }
        }
        Ok(())
    }

    fn unpack_locations(&mut self, bytes: &mut Bytes) -> Result<(), Refusal> {
        self.location_count = Bytes::count(bytes.byte()?.into(), 1, LOCATIONS)?;
        bytes.all_there(self.location_count)?;
        for location in &mut self.locations[..self.location_count] {
            let byte = bytes.byte()?;
            if byte > 1 {
                return Err(Refusal::BadLocationByte);
            }
            *location = Location {
                must_leave: byte == 1,
                ..Location::default()
            };
        }
        Ok(())
    }

    fn unpack_rules(&mut self, bytes: &mut Bytes) -> Result<(), Refusal> {
        let count = Bytes::count(bytes.pair()?.into(), 0, RULES)?;
        bytes.all_there(count * (7 + 4 * self.clocks))?;
        let mut before = 0;
        for number in 0..count {
            let source = self.unpack_rule(bytes, number)?;
            let location = &mut self.locations[usize::from(source)];
            if number == 0 || source != before {
                location.first = number as u16;
            }
            location.end = number as u16 + 1;
            before = source;
        }
        Ok(())
    }

    /// One rule; gives its source.
    fn unpack_rule(&mut self, bytes: &mut Bytes, number: usize) -> Result<u8, Refusal> {
        let least = match number {
            0 => 0,
            _ => bytes.file[bytes.at - (7 + 4 * self.clocks)],
        };
        let source = bytes.byte()?;
        let rule = &mut self.rules[number];
        rule.input_care = bytes.byte()?;
        rule.input_value = bytes.byte()?;
        rule.output_care = bytes.byte()?;
        rule.output_value = bytes.byte()?;
        rule.reset = bytes.byte()?;
        rule.target = bytes.byte()?;
        let is_location = |number: u8| usize::from(number) < self.location_count;
        let good = least <= source
            && is_location(source)
            && rule.input_care >> self.inputs == 0
            && rule.input_value & !rule.input_care == 0
            && rule.output_care >> self.outputs == 0
            && rule.output_value & !rule.output_care == 0
            && rule.reset >> self.clocks == 0
            && (is_location(rule.target) || rule.target == VIOLATION);
        if !good {
            return Err(Refusal::BadRule);
        }
        for clock in 0..self.clocks {
            let (low, high) = (bytes.pair()?, bytes.pair()?);
            let ceiling = self.ceilings[clock];
            if low > high || low > ceiling || (high >= ceiling && high != NO_UPPER_BOUND) {
                return Err(Refusal::BadBounds);
            }
            rule.low[clock] = low;
            rule.high[clock] = high;
        }
        Ok(source)
    }
}

/// A section of tags behind those that were read; gives how many it has.
fn unpack_tags(
    bytes: &mut Bytes,
    tags: &mut [u8; 2 * SIGNALS],
    before: usize,
) -> Result<usize, Refusal> {
    let count = Bytes::count(bytes.byte()?.into(), 0, SIGNALS)?;
    bytes.all_there(count)?;
    for place in before..before + count {
        let tag = bytes.byte()?;
        if !tag.is_ascii_uppercase() || tags[..place].contains(&tag) {
            return Err(Refusal::BadTag);
        }
        tags[place] = tag;
    }
    Ok(count)
}
