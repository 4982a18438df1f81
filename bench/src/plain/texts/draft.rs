//! What a text has said so far, and the file of it.

use super::super::policy::*;
use super::super::refusal::Refusal;
use super::rule::Drawn;
use super::words::{is_letter, is_name, number, Words};

const LONGEST_RULE: usize = HEAD_LENGTH + BOUND_LENGTH * MAX_CLOCKS;

/// Names in their order.
pub struct Names<'a, const MOST: usize> {
    pub names: [&'a [u8]; MOST],
    pub count: usize,
}

impl<'a, const MOST: usize> Names<'a, MOST> {
    fn new() -> Names<'a, MOST> {
        Names {
            names: [&[]; MOST],
            count: 0,
        }
    }

    pub fn find(&self, name: &[u8]) -> Option<usize> {
        self.names[..self.count]
            .iter()
            .position(|&other| other == name)
    }

    fn push(&mut self, name: &'a [u8]) -> Result<(), Refusal> {
        let place = self.names.get_mut(self.count).ok_or(Refusal::TooMany)?;
        *place = name;
        self.count += 1;
        Ok(())
    }
}

/// Tags and names of inputs or of outputs; an empty name is none.
pub struct Signals<'a> {
    pub tags: [u8; MAX_SIGNALS],
    pub names: Names<'a, MAX_SIGNALS>,
}

impl<'a> Signals<'a> {
    fn new() -> Signals<'a> {
        Signals {
            tags: [0; MAX_SIGNALS],
            names: Names::new(),
        }
    }

    /// By letter or by name; an empty name is nobody's.
    pub fn find(&self, word: &[u8]) -> Option<usize> {
        match word {
            [] => None,
            [letter @ b'A'..=b'Z'] => self.tags().iter().position(|tag| tag == letter),
            _ => self.names.find(word),
        }
    }

    fn tags(&self) -> &[u8] {
        &self.tags[..self.names.count]
    }
}

/// In the order in which they come.
#[derive(Clone, Copy, PartialEq, PartialOrd)]
enum Section {
    Inputs,
    Outputs,
    Clocks,
    Locations,
    Rules,
}

pub struct Draft<'a> {
    section: Section,
    pub inputs: Signals<'a>,
    pub outputs: Signals<'a>,
    pub clocks: Names<'a, MAX_CLOCKS>,
    pub ceilings: [u16; MAX_CLOCKS],
    pub locations: Names<'a, MAX_LOCATIONS>,
    must_leave: [u8; MAX_LOCATIONS],
    /// The location named last.
    at: Option<usize>,
    /// As they stand in the file.
    rules: [u8; LONGEST_RULE * MAX_RULES],
    rule_count: usize,
}

impl<'a> Draft<'a> {
    pub fn new() -> Draft<'a> {
        Draft {
            section: Section::Inputs,
            inputs: Signals::new(),
            outputs: Signals::new(),
            clocks: Names::new(),
            ceilings: [0; MAX_CLOCKS],
            locations: Names::new(),
            must_leave: [0; MAX_LOCATIONS],
            at: None,
            rules: [0; LONGEST_RULE * MAX_RULES],
            rule_count: 0,
        }
    }

    /// One line. Those that begin with a keyword have so many words.
    pub fn read(&mut self, line: Words<'a>) -> Result<(), Refusal> {
        let mut words = line;
        let keyword = words.next();
        match keyword {
            b"" => return Ok(()),
            b"input" | b"output" | b"clock" | b"location" | b"at" => {}
            _ => return self.rule(line),
        }
        let said = [(); 4].map(|()| words.next());
        words.expect(b"")?;
        match (keyword, said) {
            (b"input", [letter, name, b"", _]) => self.signal(Section::Inputs, letter, name),
            (b"output", [letter, name, b"", _]) => self.signal(Section::Outputs, letter, name),
            (b"clock", [name, ceiling, b"", _]) => self.clock(name, ceiling),
            (b"location", [name, b"", ..]) => self.location(name, 0),
            (b"location", [name, b"must", b"be", b"left"]) => self.location(name, 1),
            (b"at", [name, b"", ..]) if !name.is_empty() => self.at(name),
            _ => Err(Refusal::BadWord),
        }
    }

    fn enter(&mut self, section: Section) -> Result<(), Refusal> {
        if section < self.section {
            return Err(Refusal::BadWord);
        }
        self.section = section;
        Ok(())
    }

    /// An empty name is none.
    fn signal(&mut self, section: Section, letter: &[u8], name: &'a [u8]) -> Result<(), Refusal> {
        self.enter(section)?;
        if !is_letter(letter) {
            return Err(Refusal::BadWord);
        }
        self.free(letter)?;
        if !name.is_empty() {
            self.free_name(name)?;
        }
        let signals = match section {
            Section::Inputs => &mut self.inputs,
            _ => &mut self.outputs,
        };
        signals.names.push(name)?;
        signals.tags[signals.names.count - 1] = letter[0];
        Ok(())
    }

    fn clock(&mut self, name: &'a [u8], ceiling: &[u8]) -> Result<(), Refusal> {
        self.enter(Section::Clocks)?;
        self.free_name(name)?;
        let ceiling = number(ceiling)?;
        if ceiling == 0 || ceiling > MAX_CEILING {
            return Err(Refusal::BadCeiling);
        }
        self.clocks.push(name)?;
        self.ceilings[self.clocks.count - 1] = ceiling;
        Ok(())
    }

    fn free_name(&self, word: &[u8]) -> Result<(), Refusal> {
        match is_name(word) {
            true => self.free(word),
            false => Err(Refusal::BadWord),
        }
    }

    /// Signals and clocks share their names.
    fn free(&self, word: &[u8]) -> Result<(), Refusal> {
        let taken = self.inputs.find(word).is_some()
            || self.outputs.find(word).is_some()
            || self.clocks.find(word).is_some();
        match taken {
            true => Err(Refusal::BadName),
            false => Ok(()),
        }
    }

    fn location(&mut self, name: &'a [u8], must_leave: u8) -> Result<(), Refusal> {
        self.enter(Section::Locations)?;
        if !is_name(name) {
            return Err(Refusal::BadWord);
        }
        if self.locations.find(name).is_some() {
            return Err(Refusal::BadName);
        }
        self.locations.push(name)?;
        self.must_leave[self.locations.count - 1] = must_leave;
        Ok(())
    }

    fn at(&mut self, name: &[u8]) -> Result<(), Refusal> {
        self.enter(Section::Rules)?;
        let location = self.locations.find(name).ok_or(Refusal::BadName)?;
        if self.at.is_some_and(|last| location < last) {
            return Err(Refusal::FallingLocation);
        }
        self.at = Some(location);
        Ok(())
    }

    fn rule(&mut self, mut words: Words<'a>) -> Result<(), Refusal> {
        let source = self.at.ok_or(Refusal::BadWord)?;
        let drawn = Drawn::read(self, &mut words)?;
        if self.rule_count == MAX_RULES {
            return Err(Refusal::TooMany);
        }
        let length = rule_length(self.clocks.count);
        let from = length * self.rule_count;
        drawn.put(source, &mut self.rules[from..from + length]);
        self.rule_count += 1;
        Ok(())
    }

    pub fn write(&self, file: &mut [u8]) -> Result<usize, Refusal> {
        let clocks = self.clocks.count;
        let rules = &self.rules[..self.rule_count * rule_length(clocks)];
        let (inputs, outputs) = (self.inputs.tags(), self.outputs.tags());
        let must_leave = &self.must_leave[..self.locations.count];
        let counts = 6;
        let length =
            counts + inputs.len() + outputs.len() + 2 * clocks + must_leave.len() + rules.len();
        let mut rest = file.get_mut(..length).ok_or(Refusal::SliceTooShort)?;
        for tags in [inputs, outputs] {
            rest = put(rest, &[tags.len() as u8]);
            rest = put(rest, tags);
        }
        rest = put(rest, &[clocks as u8]);
        for ceiling in &self.ceilings[..clocks] {
            rest = put(rest, &ceiling.to_be_bytes());
        }
        rest = put(rest, &[must_leave.len() as u8]);
        rest = put(rest, must_leave);
        rest = put(rest, &(self.rule_count as u16).to_be_bytes());
        put(rest, rules);
        Ok(length)
    }
}

/// Puts bytes at the beginning, and returns what comes after them.
fn put<'f>(file: &'f mut [u8], bytes: &[u8]) -> &'f mut [u8] {
    let (here, rest) = file.split_at_mut(bytes.len());
    here.copy_from_slice(bytes);
    rest
}
