//! Reads a text line by line; the first line that is wrong decides. Of a line
//! first the form is asked, then its words from left to right, then whether there
//! is room for it.

use super::names::{is_letter, is_name};
use super::rule::read_rule;
use super::words::{lines, Word};
use super::Failure;
use crate::policy::*;
use crate::refusal::Refusal;
use std::collections::BTreeMap;

/// The file that a text gives, and where the text says what.
#[derive(Debug)]
pub struct ReadText {
    pub policy: Policy,
    /// The line of each rule, counted from 1.
    pub rule_lines: Vec<usize>,
    /// Inputs first.
    pub signals: Vec<Name>,
    pub clocks: Vec<Name>,
    pub locations: Vec<Name>,
}

/// Where a name begins, and how long it is.
#[derive(Clone, Copy, Debug, PartialEq, Eq)]
pub struct Name {
    pub place: usize,
    pub length: usize,
}

impl Name {
    /// That of a signal that has its letter alone.
    const NONE: Name = Name {
        place: 0,
        length: 0,
    };

    fn of(word: Word) -> Name {
        Name {
            place: word.place,
            length: word.bytes.len(),
        }
    }
}

/// What a letter or a name of the signals and clocks stands for.
#[derive(Clone, Copy, Debug, PartialEq, Eq)]
pub enum Meaning {
    Input(usize),
    Output(usize),
    Clock(usize),
}

/// In the order in which they come.
#[derive(Clone, Copy, PartialEq, Eq, PartialOrd, Ord)]
enum Section {
    Inputs,
    Outputs,
    Clocks,
    Locations,
    Rules,
}

/// A number in decimal digits.
pub fn number(digits: &[u8]) -> Result<u16, Refusal> {
    if !digits.iter().all(u8::is_ascii_digit) {
        return Err(Refusal::BadWord);
    }
    let next = |number: u64, digit: &u8| (10 * number + u64::from(digit - b'0')).min(1 << 32);
    let number = digits.iter().fold(0, next);
    u16::try_from(number).map_err(|_| Refusal::NumberTooLarge)
}

/// What has been read so far.
pub struct Reader<'a> {
    pub read: ReadText,
    section: Section,
    /// The letters and names of the signals and the names of the clocks.
    pub meanings: BTreeMap<&'a [u8], Meaning>,
    pub locations: BTreeMap<&'a [u8], u8>,
    /// The location named last.
    pub at: Option<u8>,
}

pub fn read_policy(text: &[u8]) -> Result<ReadText, Failure> {
    let mut reader = Reader::new();
    for (line, words) in (1..).zip(lines(text)) {
        reader
            .line(line, &words)
            .map_err(|refusal| Failure { refusal, line })?;
    }
    let policy = &reader.read.policy;
    if policy.locations() == 0 {
        return Err(Failure::of_no_line(Refusal::CountOutsideLimits));
    }
    if policy.states() > MAX_STATES {
        return Err(Failure::of_no_line(Refusal::TooManyStates));
    }
    Ok(reader.read)
}

impl<'a> Reader<'a> {
    fn new() -> Reader<'a> {
        Reader {
            read: ReadText {
                policy: Policy {
                    inputs: vec![],
                    outputs: vec![],
                    ceilings: vec![],
                    must_leave: vec![],
                    rules: vec![],
                },
                rule_lines: vec![],
                signals: vec![],
                clocks: vec![],
                locations: vec![],
            },
            section: Section::Inputs,
            meanings: BTreeMap::new(),
            locations: BTreeMap::new(),
            at: None,
        }
    }

    fn line(&mut self, line: usize, words: &[Word<'a>]) -> Result<(), Refusal> {
        let bytes: Vec<&[u8]> = words.iter().map(|word| word.bytes).collect();
        match bytes[..] {
            [] => Ok(()),
            [b"input", _] => self.signal(Section::Inputs, words[1], None),
            [b"input", _, _] => self.signal(Section::Inputs, words[1], Some(words[2])),
            [b"output", _] => self.signal(Section::Outputs, words[1], None),
            [b"output", _, _] => self.signal(Section::Outputs, words[1], Some(words[2])),
            [b"clock", _, ceiling] => self.clock(words[1], ceiling),
            [b"location", _] => self.location(words[1], false),
            [b"location", _, b"must", b"be", b"left"] => self.location(words[1], true),
            [b"at", _] => self.at(words[1]),
            [b"input" | b"output" | b"clock" | b"location" | b"at", ..] => Err(Refusal::BadWord),
            _ => self.rule(line, words),
        }
    }

    /// Sections do not come again.
    fn enter(&mut self, section: Section) -> Result<(), Refusal> {
        if section < self.section {
            return Err(Refusal::BadWord);
        }
        self.section = section;
        Ok(())
    }

    fn signal(
        &mut self,
        section: Section,
        letter: Word<'a>,
        name: Option<Word<'a>>,
    ) -> Result<(), Refusal> {
        self.enter(section)?;
        let policy = &mut self.read.policy;
        let (tags, meaning): (_, fn(usize) -> Meaning) = match section {
            Section::Inputs => (&mut policy.inputs, Meaning::Input),
            _ => (&mut policy.outputs, Meaning::Output),
        };
        let number = tags.len();
        if !is_letter(letter.bytes) {
            return Err(Refusal::BadWord);
        }
        take(&mut self.meanings, letter, meaning(number))?;
        if let Some(name) = name {
            take_name(&mut self.meanings, name, meaning(number))?;
        }
        tags.push(letter.bytes[0]);
        self.read.signals.push(name.map_or(Name::NONE, Name::of));
        room(number, MAX_SIGNALS)
    }

    fn clock(&mut self, name: Word<'a>, ceiling: &[u8]) -> Result<(), Refusal> {
        self.enter(Section::Clocks)?;
        let clock = self.read.policy.ceilings.len();
        take_name(&mut self.meanings, name, Meaning::Clock(clock))?;
        let ceiling = number(ceiling)?;
        if ceiling == 0 || ceiling > MAX_CEILING {
            return Err(Refusal::BadCeiling);
        }
        self.read.policy.ceilings.push(ceiling);
        self.read.clocks.push(Name::of(name));
        room(clock, MAX_CLOCKS)
    }

    fn location(&mut self, name: Word<'a>, must_be_left: bool) -> Result<(), Refusal> {
        self.enter(Section::Locations)?;
        let location = self.read.policy.locations();
        take_name(&mut self.locations, name, location as u8)?;
        self.read.policy.must_leave.push(must_be_left);
        self.read.locations.push(Name::of(name));
        room(location, MAX_LOCATIONS)
    }

    fn at(&mut self, name: Word<'a>) -> Result<(), Refusal> {
        self.enter(Section::Rules)?;
        let location = self.location_of(name)?;
        if self.at.is_some_and(|last| location < last) {
            return Err(Refusal::FallingLocation);
        }
        self.at = Some(location);
        Ok(())
    }

    fn rule(&mut self, line: usize, words: &[Word<'a>]) -> Result<(), Refusal> {
        let source = self.at.ok_or(Refusal::BadWord)?;
        let rule = read_rule(self, source, words)?;
        self.read.policy.rules.push(rule);
        self.read.rule_lines.push(line);
        room(self.read.policy.rules.len() - 1, MAX_RULES)
    }

    /// Any word that is none of them is an unknown name, whatever it looks like.
    pub fn location_of(&self, name: Word) -> Result<u8, Refusal> {
        let location = self.locations.get(name.bytes);
        location.copied().ok_or(Refusal::BadName)
    }

    pub fn meaning_of(&self, name: Word) -> Result<Meaning, Refusal> {
        let meaning = self.meanings.get(name.bytes);
        meaning.copied().ok_or(Refusal::BadName)
    }
}

/// Where there were so many already, was there room for one more?
fn room(already: usize, most: usize) -> Result<(), Refusal> {
    match already < most {
        true => Ok(()),
        false => Err(Refusal::TooMany),
    }
}

/// A word that must be a name, and not taken.
fn take_name<'a, T>(
    taken: &mut BTreeMap<&'a [u8], T>,
    word: Word<'a>,
    meaning: T,
) -> Result<(), Refusal> {
    match is_name(word.bytes) {
        true => take(taken, word, meaning),
        false => Err(Refusal::BadWord),
    }
}

/// A letter or a name, if it is not taken.
fn take<'a, T>(
    taken: &mut BTreeMap<&'a [u8], T>,
    word: Word<'a>,
    meaning: T,
) -> Result<(), Refusal> {
    match taken.insert(word.bytes, meaning) {
        None => Ok(()),
        Some(_) => Err(Refusal::BadName),
    }
}
