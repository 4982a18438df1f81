//! Refusals: a number that the library gives, its words, and where it was met.

use std::error::Error;
use std::fmt;

/// A refusal of the library. Its number is the library's; a caller that knows where
/// it was met adds the place.
///
/// ```
/// use groovepawn::Policy;
///
/// let refusal = Policy::check(&[]).unwrap_err();
/// assert_eq!(refusal.number(), 1);
/// assert_eq!(refusal.to_string(), "refused 1: a count or its section is cut short");
/// assert_eq!(
///     refusal.at("byte 0").to_string(),
///     "refused 1: a count or its section is cut short: byte 0",
/// );
/// ```
#[derive(Clone, Debug, PartialEq, Eq)]
pub struct Refusal {
    number: u8,
    line: Option<usize>,
    place: Option<Box<str>>,
}

/// The words of the refusals, from 1 on.
const WORDS: [&str; 35] = [
    "a count or its section is cut short",
    "a count is outside its limits",
    "a tag is not A to Z or is repeated",
    "a ceiling is 0 or above 1,001",
    "a location byte is above 1",
    "a rule's first seven bytes break the rules of the file",
    "a rule's bounds break the rules of the file",
    "bytes are left over",
    "there are more than 65,536 states",
    "the mark slice is shorter than the number of states",
    "the policy is hopeless: the start is not live",
    "two policies differ in signal tags or their order",
    "a join has over 64 locations, 4 clocks, 256 rules or 65,536 states",
    "the slice to be written is too short",
    "an event, an input or an output has a bit beyond its signals",
    "a state is out of range or its mark is not 1",
    "no input, or for this input no output, leads to a live state",
    "the tick length is 0",
    "the tick count is above 1,000",
    "the marks are not those of this policy under this reading",
    "the text is not a wave of this policy, or holds a time above 16,384",
    "the reading is neither 1 nor 2",
    "a work slice has fewer entries than there are states",
    "there is no such bay",
    "a list of bays has 1 to 8 of them",
    "the policy has no input P or no output D",
    "a total would pass 4,294,967,295",
    "the index is not that of the policy",
    "a wave has at most 16,384 events",
    "a line or a word is not of this form, or comes in the wrong place",
    "a name or letter is taken, unknown, or said twice in one rule",
    "a number is above 65,535",
    "there are more of something than a file has room for",
    "an at names a location that stands before the one named last",
    "there is none of this number",
];

impl Refusal {
    /// The refusal of this number.
    ///
    /// ```
    /// assert_eq!(groovepawn::Refusal::of(11).words(), "the policy is hopeless: the start is not live");
    /// ```
    pub fn of(number: u8) -> Refusal {
        Refusal {
            number,
            line: None,
            place: None,
        }
    }

    /// The refusal that an answer of the library holds, if it holds one.
    pub(crate) fn of_answer(answer: u64) -> Option<Refusal> {
        match (answer & 0xff) as u8 {
            0 => None,
            number => Some(Refusal::of(number)),
        }
    }

    /// The library's number.
    pub fn number(&self) -> u8 {
        self.number
    }

    /// What the number means.
    pub fn words(&self) -> &'static str {
        let at = usize::from(self.number).checked_sub(1);
        at.and_then(|at| WORDS.get(at))
            .copied()
            .unwrap_or("a refusal of another version")
    }

    /// The line of the policy's text that it was met in, counted from 1.
    pub fn line(&self) -> Option<usize> {
        self.line
    }

    /// The same refusal, met in this line of a policy's text.
    pub(crate) fn on_line(self, line: usize) -> Refusal {
        Refusal {
            line: Some(line),
            ..self.at(format!("line {line}"))
        }
    }

    /// Where it was met, if a caller said so.
    pub fn place(&self) -> Option<&str> {
        self.place.as_deref()
    }

    /// The same refusal, met at this place.
    pub fn at(self, place: impl Into<String>) -> Refusal {
        Refusal {
            place: Some(place.into().into()),
            ..self
        }
    }
}

impl fmt::Display for Refusal {
    fn fmt(&self, out: &mut fmt::Formatter) -> fmt::Result {
        write!(out, "refused {}: {}", self.number, self.words())?;
        match self.place() {
            Some(place) => write!(out, ": {place}"),
            None => Ok(()),
        }
    }
}

impl Error for Refusal {}
