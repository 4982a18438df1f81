//! A policy as text: what people write, review and sign.

use crate::answer::{field, length};
use crate::call;
use crate::policy::{Policy, MOST_FILE_BYTES};
use crate::refusal::Refusal;

/// A text that gives a policy, with the names that it has for things.
///
/// ```
/// use groovepawn::PolicyText;
///
/// let text = PolicyText::read(b"
/// input C credit
/// output V valve
/// location idle
/// location open
/// at idle
///   credit -> open
///   valve  -> violation
///   any    -> idle
/// at open
///   any    -> idle
/// ")?;
/// assert_eq!(text.policy().states(), 2);
/// assert_eq!(text.name_of_signal(0), Some("credit"));
/// assert_eq!(text.name_of_location(1), Some("open"));
/// assert_eq!(text.line_of_rule(3), Some(11));
///
/// let refusal = PolicyText::read(b"input C\noutput C\n").unwrap_err();
/// assert_eq!((refusal.number(), refusal.line()), (31, Some(2)));
/// # Ok::<(), groovepawn::Refusal>(())
/// ```
#[derive(Clone, Debug, PartialEq, Eq)]
pub struct PolicyText {
    bytes: Vec<u8>,
    policy: Policy,
}

impl PolicyText {
    /// Reads a text. Refusals: 4, 7 and 30 to 34, each with its line; then 2 and 9.
    pub fn read(bytes: &[u8]) -> Result<PolicyText, Refusal> {
        let mut file = vec![0; MOST_FILE_BYTES];
        let written = placed(call::text_read(bytes, &mut file))?.length;
        file.truncate(written);
        Ok(PolicyText {
            bytes: bytes.to_vec(),
            policy: Policy::check(&file)?,
        })
    }

    /// The text.
    pub fn bytes(&self) -> &[u8] {
        &self.bytes
    }

    /// The policy that it gives.
    pub fn policy(&self) -> &Policy {
        &self.policy
    }

    /// The line of a rule, counted from 1; the rules are counted from 0, as in the file.
    pub fn line_of_rule(&self, rule: usize) -> Option<usize> {
        let rule = u32::try_from(rule).ok()?;
        let found = placed(call::text_line_of_rule(&self.bytes, rule));
        found.ok().map(|found| found.place)
    }

    /// The name of a signal, if it has one; the inputs are counted first.
    pub fn name_of_signal(&self, signal: usize) -> Option<&str> {
        self.named(signal, call::text_name_of_signal)
    }

    /// The name of a clock.
    pub fn name_of_clock(&self, clock: usize) -> Option<&str> {
        self.named(clock, call::text_name_of_clock)
    }

    /// The name of a location.
    pub fn name_of_location(&self, location: usize) -> Option<&str> {
        self.named(location, call::text_name_of_location)
    }

    fn named(&self, number: usize, ask: fn(&[u8], u32) -> u64) -> Option<&str> {
        let number = u32::try_from(number).ok()?;
        let Placed { place, length } = placed(ask(&self.bytes, number)).ok()?;
        let name = self.bytes.get(place..)?.get(..length)?;
        // No byte is no name; a name has small letters, digits and underscores alone.
        std::str::from_utf8(name)
            .ok()
            .filter(|name| !name.is_empty())
    }
}

impl Policy {
    /// The policy as text, with letters for its signals and numbers for the rest: it
    /// reads back as this policy.
    ///
    /// ```
    /// # use groovepawn::{Policy, PolicyText};
    /// let policy = Policy::check(&[1, b'A', 0, 0, 1, 0, 0, 1, 0, 1, 0, 0, 0, 0, 0])?;
    /// assert_eq!(policy.text(), "input A\nlocation q0\n\nat q0\n  !A -> q0\n");
    /// assert_eq!(PolicyText::read(policy.text().as_bytes())?.policy(), &policy);
    /// # Ok::<(), groovepawn::Refusal>(())
    /// ```
    pub fn text(&self) -> String {
        let mut text = vec![0; call::MOST_POLICY_TEXT_BYTES];
        // It can't be refused: the file passed its check, and no text is longer.
        let written = length(call::text_write(self.bytes(), &mut text)).unwrap_or_default();
        text.truncate(written);
        String::from_utf8(text).unwrap_or_default()
    }
}

/// What the functions for texts answer: a place in the text and a length.
struct Placed {
    place: usize,
    length: usize,
}

/// The answer's place and length, or its refusal with the line.
fn placed(answer: u64) -> Result<Placed, Refusal> {
    let place = field(answer, 8, 32) as usize;
    match Refusal::of_answer(answer) {
        None => Ok(Placed {
            place,
            length: field(answer, 40, 24) as usize,
        }),
        // What is refused of the whole text has no line.
        Some(refusal) if place == 0 => Err(refusal),
        Some(refusal) => Err(refusal.on_line(place)),
    }
}
