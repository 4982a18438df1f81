//! A policy: the bytes of a file that passed its check.

use crate::answer::{field, length, value};
use crate::call;
use crate::clean::{Cleaned, Struck};
use crate::index::Index;
use crate::marks::{Marks, Summary};
use crate::reading::Reading;
use crate::refusal::Refusal;
use crate::rule::{Rule, BOUNDS, HEAD};

/// The longest file.
pub const MOST_FILE_BYTES: usize = call::MOST_FILE_BYTES;

/// The most states that a policy can have.
pub const MOST_STATES: usize = call::MOST_STATES;

/// A policy that passed the library's check.
///
/// ```
/// use groovepawn::{Policy, Reading};
///
/// // T: after A there is no way on.
/// let bytes = [
///     1, b'A', 1, b'B', 0, 2, 0, 0, 0, 2, //
///     0, 1, 1, 0, 0, 0, 1, //
///     0, 0, 0, 0, 0, 0, 0,
/// ];
/// let policy = Policy::check(&bytes)?;
/// assert_eq!(policy.states(), 2);
/// assert_eq!((policy.inputs(), policy.outputs()), (&b"A"[..], &b"B"[..]));
///
/// let (marks, summary) = policy.prepare(Reading::AtStart)?;
/// assert_eq!(marks.bytes(), [1, 0]);
/// assert_eq!(summary.verdict(), 1);
/// # Ok::<(), groovepawn::Refusal>(())
/// ```
#[derive(Clone, Debug, PartialEq, Eq)]
pub struct Policy {
    file: Vec<u8>,
    states: usize,
}

/// A location of a policy.
#[derive(Clone, Copy, Debug, PartialEq, Eq)]
pub struct Location {
    /// Whether a stream must leave it again and again to be live.
    pub must_be_left: bool,
}

impl Policy {
    /// Checks the bytes of a file. Refusals: 1 to 9.
    pub fn check(file: &[u8]) -> Result<Policy, Refusal> {
        let states = value(call::check(file))? as usize;
        Ok(Policy {
            file: file.to_vec(),
            states,
        })
    }

    /// The file.
    pub fn bytes(&self) -> &[u8] {
        &self.file
    }

    /// How many states there are: locations times the product of (ceiling + 1).
    pub fn states(&self) -> usize {
        self.states
    }

    /// The marks of all states, and what they come to. Refusals: 11.
    pub fn prepare(&self, reading: Reading) -> Result<(Marks, Summary), Refusal> {
        let mut bytes = vec![0; self.states];
        let answer = value(call::prepare(reading.number(), &self.file, &mut bytes))?;
        Ok((Marks { reading, bytes }, Summary::of_value(answer)))
    }

    /// The same by the second engine, faster on a large table.
    ///
    /// ```
    /// # use groovepawn::{Policy, Reading};
    /// let policy = Policy::check(&[0, 0, 0, 1, 0, 0, 1, 0, 0, 0, 0, 0, 0, 0])?;
    /// let reading = Reading::AfterCounting;
    /// assert_eq!(policy.prepare_fast(reading)?, policy.prepare(reading)?);
    /// # Ok::<(), groovepawn::Refusal>(())
    /// ```
    pub fn prepare_fast(&self, reading: Reading) -> Result<(Marks, Summary), Refusal> {
        let mut bytes = vec![0; self.states];
        let mut work = call::work(self.states);
        let answer = value(call::prepare_fast(
            reading.number(),
            &self.file,
            &mut bytes,
            &mut work,
        ))?;
        Ok((Marks { reading, bytes }, Summary::of_value(answer)))
    }

    /// The marks of all states, of a hopeless policy too.
    ///
    /// ```
    /// # use groovepawn::{Policy, Reading};
    /// let hopeless = Policy::check(&[0, 0, 0, 1, 0, 0, 0])?;
    /// assert_eq!(hopeless.prepare(Reading::AtStart).unwrap_err().number(), 11);
    /// assert_eq!(hopeless.marks(Reading::AtStart).bytes(), [0]);
    /// # Ok::<(), groovepawn::Refusal>(())
    /// ```
    pub fn marks(&self, reading: Reading) -> Marks {
        let mut bytes = vec![0; self.states];
        let mut work = call::work(self.states);
        // 11 leaves the marks as success does, and no other refusal can come: the file
        // passed its check, and every slice has an entry for each state.
        let _ = call::prepare_fast(reading.number(), &self.file, &mut bytes, &mut work);
        Marks { reading, bytes }
    }

    /// The policy that asks what both ask. Refusals: 12, 13.
    ///
    /// ```
    /// # use groovepawn::Policy;
    /// let all = Policy::check(&[0, 0, 0, 1, 0, 0, 1, 0, 0, 0, 0, 0, 0, 0])?;
    /// assert_eq!(all.join(&all)?, all);
    /// # Ok::<(), groovepawn::Refusal>(())
    /// ```
    pub fn join(&self, other: &Policy) -> Result<Policy, Refusal> {
        let mut joined = vec![0; MOST_FILE_BYTES];
        let written = length(call::join(&self.file, &other.file, &mut joined))?;
        joined.truncate(written);
        Policy::check(&joined)
    }

    /// The policy without what is of no use under this reading, and what went.
    ///
    /// ```
    /// use groovepawn::{Policy, Reading, Struck};
    ///
    /// // A second location that no rule enters.
    /// let policy = Policy::check(&[0, 0, 0, 2, 0, 0, 0, 1, 0, 0, 0, 0, 0, 0, 0])?;
    /// let cleaned = policy.clean(Reading::AtStart)?;
    /// assert_eq!(cleaned.struck, [Struck::Location(1)]);
    /// assert_eq!(cleaned.policy.locations().len(), 1);
    /// # Ok::<(), groovepawn::Refusal>(())
    /// ```
    pub fn clean(&self, reading: Reading) -> Result<Cleaned, Refusal> {
        let mut cleaned = vec![0; MOST_FILE_BYTES];
        let mut struck = vec![0; call::MOST_STRUCK_BYTES];
        let lengths = value(call::clean(
            reading.number(),
            &self.file,
            &mut cleaned,
            &mut struck,
        ))?;
        cleaned.truncate(field(lengths, 0, 24) as usize);
        struck.truncate(field(lengths, 24, 32) as usize);
        Ok(Cleaned {
            policy: Policy::check(&cleaned)?,
            struck: Struck::of_list(&struck),
        })
    }

    /// The index of the rules.
    ///
    /// ```
    /// # use groovepawn::Policy;
    /// let policy = Policy::check(&[0, 0, 0, 1, 0, 0, 1, 0, 0, 0, 0, 0, 0, 0])?;
    /// assert_eq!(policy.index().rules(0), 0..1);
    /// # Ok::<(), groovepawn::Refusal>(())
    /// ```
    pub fn index(&self) -> Index {
        let mut numbers = [0; call::INDEX_LEN];
        // It can't be refused: the file passed its check, and 128 numbers are lent.
        let _ = call::index(&self.file, &mut numbers);
        Index { numbers }
    }

    /// A released stream as a text for wave viewers. Refusals: 29, 15.
    ///
    /// ```
    /// # use groovepawn::Policy;
    /// let policy = Policy::check(&[1, b'A', 0, 0, 1, 0, 0, 0])?;
    /// let text = policy.wave(&[0, 1])?;
    /// assert!(text.starts_with(b"$timescale 100 ms $end\n$var wire 1 A A $end\n"));
    /// assert_eq!(policy.wave_events(&text)?, [0, 1]);
    /// assert_eq!(policy.wave_events(b"no wave").unwrap_err().number(), 21);
    /// # Ok::<(), groovepawn::Refusal>(())
    /// ```
    pub fn wave(&self, events: &[u8]) -> Result<Vec<u8>, Refusal> {
        let mut text = vec![0; call::MOST_TEXT_BYTES];
        let written = length(call::wave_write(&self.file, events, &mut text))?;
        text.truncate(written);
        Ok(text)
    }

    /// The stream of such a text. Refusals: 21.
    pub fn wave_events(&self, text: &[u8]) -> Result<Vec<u8>, Refusal> {
        let mut events = vec![0; call::MOST_EVENTS_OF_A_WAVE];
        let written = length(call::wave_read(&self.file, text, &mut events))?;
        events.truncate(written);
        Ok(events)
    }
}

/// What stands in the file. It passed its check, so every section is whole.
impl Policy {
    /// The tags of the inputs, the most important first.
    pub fn inputs(&self) -> &[u8] {
        section(&self.file, 1)
    }

    /// The tags of the outputs.
    pub fn outputs(&self) -> &[u8] {
        section(&self.file[1 + self.inputs().len()..], 1)
    }

    /// The ceilings of the clocks.
    pub fn ceilings(&self) -> Vec<u16> {
        let ceilings = section(self.clocks_on(), 2);
        ceilings
            .chunks_exact(2)
            .map(|two| u16::from_be_bytes([two[0], two[1]]))
            .collect()
    }

    /// The locations; number 0 is the start.
    pub fn locations(&self) -> Vec<Location> {
        let bytes = section(self.locations_on(), 1);
        bytes
            .iter()
            .map(|&byte| Location {
                must_be_left: byte == 1,
            })
            .collect()
    }

    /// The rules.
    pub fn rules(&self) -> Vec<Rule> {
        let clocks = section(self.clocks_on(), 2).len() / 2;
        let locations = section(self.locations_on(), 1).len();
        let after_count = &self.locations_on()[1 + locations + 2..];
        after_count
            .chunks_exact(HEAD + BOUNDS * clocks)
            .map(Rule::of_bytes)
            .collect()
    }

    /// Whether an event has no bit beyond the signals.
    pub fn has_signals_of(&self, event: u8) -> bool {
        event & !self.signals() == 0
    }

    /// The bits that an event may have.
    pub fn signals(&self) -> u8 {
        let bits = |signals: &[u8]| (1u8 << signals.len()) - 1;
        bits(self.inputs()) | bits(self.outputs()) << 4
    }

    /// The file from its clocks on.
    fn clocks_on(&self) -> &[u8] {
        &self.file[2 + self.inputs().len() + self.outputs().len()..]
    }

    /// The file from its locations on.
    fn locations_on(&self) -> &[u8] {
        let clocks_on = self.clocks_on();
        &clocks_on[1 + section(clocks_on, 2).len()..]
    }
}

/// What follows a count of one byte, with so many bytes for each.
fn section(bytes: &[u8], size: usize) -> &[u8] {
    &bytes[1..1 + size * usize::from(bytes[0])]
}
