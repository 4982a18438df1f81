//! The words of a command: options as its help names them, and operands.

use std::ffi::{OsStr, OsString};
use std::fs;

use groovepawn::Reading;

use crate::fault::Fault;
use crate::help::{Command, Flag};
use crate::policies::STANDARD_INPUT;

/// The words that a command was given.
pub struct Words<'a> {
    command: &'static Command,
    options: Vec<(&'static Flag, Option<&'a OsStr>)>,
    pub operands: Vec<&'a OsStr>,
}

impl<'a> Words<'a> {
    pub fn parse(command: &'static Command, words: &'a [OsString]) -> Result<Words<'a>, Fault> {
        let mut parsed = Words {
            command,
            options: Vec::new(),
            operands: Vec::new(),
        };
        let mut words = words.iter();
        let mut options = true;
        while let Some(word) = words.next() {
            let is_option = options && word.len() > 1 && word.as_encoded_bytes()[0] == b'-';
            if !is_option {
                parsed.operands.push(word);
            } else if word == "--" {
                options = false;
            } else {
                parsed.option(word, &mut words)?;
            }
        }
        if parsed
            .operands
            .iter()
            .filter(|&&word| word == STANDARD_INPUT)
            .count()
            > 1
        {
            return Err(parsed.wrong("standard input can be read once".to_string()));
        }
        Ok(parsed)
    }

    fn option(
        &mut self,
        word: &'a OsStr,
        rest: &mut impl Iterator<Item = &'a OsString>,
    ) -> Result<(), Fault> {
        let said = word.to_string_lossy();
        let Some(flag) = self.command.flags.iter().find(|flag| flag.name == said) else {
            return Err(self.wrong(format!("there is no option {said}")));
        };
        if self.has(flag) {
            return Err(self.wrong(format!("{said} is there twice")));
        }
        let value = match flag.value {
            None => None,
            Some(kind) => match rest.next() {
                Some(value) => Some(value.as_os_str()),
                None => return Err(self.wrong(format!("{said} needs {kind} behind it"))),
            },
        };
        self.options.push((flag, value));
        self.reading_named().map(|_| ())
    }

    pub fn has(&self, flag: &Flag) -> bool {
        self.options
            .iter()
            .any(|(given, _)| given.name == flag.name)
    }

    pub fn value(&self, flag: &Flag) -> Option<&'a OsStr> {
        let given = self
            .options
            .iter()
            .find(|(given, _)| given.name == flag.name)?;
        given.1
    }

    /// The file of -o, if it is named: none of those that are read.
    pub fn out(&self) -> Result<Option<&'a OsStr>, Fault> {
        let named = self.value(&crate::help::OUT);
        if let Some(out) = named {
            if self.operands.iter().any(|read| is_same(read, out)) {
                let out = out.to_string_lossy();
                return Err(self.wrong(format!(
                    "{out} is read, and would be lost; name another file behind -o"
                )));
            }
        }
        Ok(named)
    }

    /// The same where the command cannot do without it.
    pub fn out_needed(&self) -> Result<&'a OsStr, Fault> {
        self.needed(&crate::help::OUT)?;
        Ok(self.out()?.unwrap_or_default())
    }

    /// The value of an option that the command cannot do without.
    pub fn needed(&self, flag: &Flag) -> Result<&'a OsStr, Fault> {
        let kind = flag.value.unwrap_or_default();
        self.value(flag)
            .ok_or_else(|| self.wrong(format!("{} {kind} is missing", flag.name)))
    }

    /// The reading, 1 if none is named.
    pub fn reading(&self) -> Result<Reading, Fault> {
        Ok(self.reading_named()?.unwrap_or_default())
    }

    /// The reading, if one is named.
    pub fn reading_named(&self) -> Result<Option<Reading>, Fault> {
        let Some(said) = self.value(&crate::help::READING) else {
            return Ok(None);
        };
        let number = said.to_str().and_then(|said| said.parse::<u8>().ok());
        match number.map(Reading::try_from) {
            Some(Ok(reading)) => Ok(Some(reading)),
            _ => Err(self.wrong(format!("-r is 1 or 2, not {}", said.to_string_lossy()))),
        }
    }

    /// A number of ticks, counted from 1.
    pub fn tick(&self, flag: &Flag) -> Result<Option<u64>, Fault> {
        let Some(said) = self.value(flag) else {
            return Ok(None);
        };
        match said.to_str().and_then(|said| said.parse().ok()) {
            Some(tick) if tick > 0 => Ok(Some(tick)),
            _ => Err(self.wrong(format!("{} is a tick, counted from 1", flag.name))),
        }
    }

    /// Exactly so many operands.
    pub fn exactly<const N: usize>(&self) -> Result<[&'a OsStr; N], Fault> {
        self.operands[..].try_into().map_err(|_| self.wrong_count())
    }

    pub fn wrong_count(&self) -> Fault {
        let count = self.operands.len();
        self.wrong(format!("wrong number of files: {count}"))
    }

    /// A call that is wrong: what is, and how the command is used.
    pub fn wrong(&self, words: String) -> Fault {
        Fault::Wrong(format!(
            "{words}\nusage: groovepawn {}",
            self.command.usage()
        ))
    }
}

/// Whether two names are of one file. What is no regular file is not lost by writing.
fn is_same(read: &OsStr, written: &OsStr) -> bool {
    let regular = fs::metadata(written).is_ok_and(|there| there.is_file());
    match (fs::canonicalize(read), fs::canonicalize(written)) {
        (Ok(read), Ok(written)) => regular && read == written,
        _ => false,
    }
}
