//! Events, read in pieces: as text, a line a tick, or as bytes.

use std::ffi::OsStr;
use std::io::{BufRead, BufReader, Read};

use crate::fault::Fault;
use crate::policies::{name_of, open, Named};
use crate::signals::{Signals, NONE_ON};

/// How many events are handled at once: more than `enforce` takes in all.
pub const PIECE: usize = 1 << 16;

/// The longest line of a text of events.
const LONGEST_LINE: u64 = 4_096;

/// How events stand in a file.
#[derive(Clone, Copy, PartialEq, Eq)]
pub enum Form {
    Text,
    Bytes,
}

pub struct Events {
    pub name: String,
    source: BufReader<Box<dyn Read>>,
    form: Form,
    signals: Signals,
    /// Whether the policy is a file, without names.
    letters_alone: bool,
    line: u64,
    /// How many events were handed out.
    tick: u64,
    /// The event of the last line, and how often it is still to come.
    again: (u8, u64),
}

impl Events {
    pub fn open(path: &OsStr, form: Form, named: &Named) -> Result<Events, Fault> {
        let name = name_of(path);
        let source = BufReader::with_capacity(PIECE, open(path, &name)?);
        let signals = Signals::of(named);
        Ok(Events {
            name,
            source,
            form,
            signals,
            letters_alone: named.text.is_none(),
            line: 0,
            tick: 0,
            again: (0, 0),
        })
    }

    /// The next events, at most a piece; none at the end. What is wrong comes with
    /// the events before it.
    pub fn piece(&mut self, events: &mut Vec<u8>) -> Result<(), Fault> {
        events.clear();
        let read = match self.form {
            Form::Bytes => self.bytes(events),
            Form::Text => self.lines(events),
        };
        self.tick += events.len() as u64;
        read
    }

    fn bytes(&mut self, events: &mut Vec<u8>) -> Result<(), Fault> {
        let read = self.source.by_ref().take(PIECE as u64).read_to_end(events);
        read.map(|_| ())
            .map_err(|error| Fault::of_io(&self.name, &error))
    }

    fn lines(&mut self, events: &mut Vec<u8>) -> Result<(), Fault> {
        loop {
            let (event, times) = self.again;
            let now = times.min((PIECE - events.len()) as u64);
            events.resize(events.len() + now as usize, event);
            self.again.1 -= now;
            if events.len() == PIECE {
                return Ok(());
            }
            match self.next_line()? {
                None => return Ok(()),
                Some(line) => {
                    let tick = self.tick + events.len() as u64 + 1;
                    self.again = self.meaning(&line, tick)?;
                }
            }
        }
    }

    fn next_line(&mut self) -> Result<Option<String>, Fault> {
        let mut line = Vec::new();
        let read = self
            .source
            .by_ref()
            .take(LONGEST_LINE + 1)
            .read_until(b'\n', &mut line);
        read.map_err(|error| Fault::of_io(&self.name, &error))?;
        if line.is_empty() {
            return Ok(None);
        }
        self.line += 1;
        if line.len() as u64 > LONGEST_LINE {
            return Err(self.wrong(format!("it is longer than {LONGEST_LINE} bytes")));
        }
        match String::from_utf8(line) {
            Ok(line) => Ok(Some(line)),
            Err(_) => Err(self.wrong("it is no text; bytes are read by --bytes")),
        }
    }

    /// The event of a line and how often it comes.
    fn meaning(&self, line: &str, tick: u64) -> Result<(u8, u64), Fault> {
        let said = line.split('#').next().unwrap_or_default();
        let (said, times) = match said.split_once('*') {
            Some((said, times)) => (said, Some(times.trim())),
            None => (said, None),
        };
        let mut words = said.split_whitespace().peekable();
        if words.peek().is_none() {
            return match times {
                None => Ok((0, 0)),
                Some(_) => {
                    Err(self.wrong("there is no event before the *; - stands for no signal"))
                }
            };
        }
        let times = match times {
            None => 1,
            Some(times) => self.times(times)?,
        };
        let words: Vec<&str> = words.collect();
        if words == [NONE_ON] {
            return Ok((0, times));
        }
        let mut event = 0;
        for word in words {
            let Some(bit) = self.signals.bit(word) else {
                return Err(self.no_signal(word, tick));
            };
            if event & bit != 0 {
                return Err(self.wrong(format!("{word} is there twice")));
            }
            event |= bit;
        }
        Ok((event, times))
    }

    fn times(&self, times: &str) -> Result<u64, Fault> {
        match times.parse() {
            Ok(times) if times > 0 => Ok(times),
            _ => Err(self.wrong(format!("'{times}' is no count of ticks behind the *"))),
        }
    }

    /// A word that names no signal: there is no event to put to the library.
    fn no_signal(&self, word: &str, tick: u64) -> Fault {
        let told = self.signals.told();
        let file = if self.letters_alone {
            " (the policy is a file, and has letters and no names)"
        } else {
            ""
        };
        self.wrong(format!(
            "tick {tick}: no signal {word}; there are {told}{file}"
        ))
    }

    fn wrong(&self, words: impl AsRef<str>) -> Fault {
        Fault::Failed(format!(
            "{}: line {}: {}",
            self.name,
            self.line,
            words.as_ref()
        ))
    }
}
