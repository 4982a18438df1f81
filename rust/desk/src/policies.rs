//! Policies, read from files.

use std::ffi::OsStr;
use std::fs::File;
use std::io::{self, Read};

use groovepawn::{Marks, Policy, PolicyText, Reading, Refusal, Summary, MOST_FILE_BYTES};

use crate::fault::Fault;
use crate::locate;
use crate::texts;

/// The word that stands for standard input.
pub const STANDARD_INPUT: &str = "-";

/// A policy and the name that it goes by.
pub struct Named {
    pub name: String,
    pub policy: Policy,
    /// The text that it was written as, if it was.
    pub text: Option<PolicyText>,
}

impl Named {
    pub fn read(path: &OsStr) -> Result<Named, Fault> {
        let name = name_of(path);
        let bytes = beginning(path, &name)?;
        let read = if texts::is_text(&bytes) {
            texts::read(&bytes).map(|text| (text.policy().clone(), Some(text)))
        } else {
            let checked = Policy::check(&bytes).map(|policy| (policy, None));
            checked.map_err(|refusal| with_place(refusal, &bytes))
        };
        match read {
            Ok((policy, text)) => Ok(Named { name, policy, text }),
            Err(refusal) => Err(Fault::refused(name, refusal)),
        }
    }

    /// The marks under a reading; a hopeless policy is refused.
    pub fn prepare(&self, reading: Reading) -> Result<(Marks, Summary), Fault> {
        self.policy.prepare_fast(reading).map_err(|refusal| {
            let place = format!("under reading {}", reading.number());
            Fault::refused(&self.name, refusal.at(place))
        })
    }
}

/// What a path or the word for standard input is called in a message.
pub fn name_of(path: &OsStr) -> String {
    if path == STANDARD_INPUT {
        "standard input".to_string()
    } else {
        path.to_string_lossy().into_owned()
    }
}

/// What stands in a file, or on standard input.
pub fn open(path: &OsStr, name: &str) -> Result<Box<dyn Read>, Fault> {
    if path == STANDARD_INPUT {
        return Ok(Box::new(io::stdin()));
    }
    match File::open(path) {
        Ok(file) => Ok(Box::new(file)),
        Err(error) => Err(Fault::of_io(name, &error)),
    }
}

/// As much of a policy as decides what is to be said of it. Of a file that is one
/// byte more than the longest has: a longer one has bytes left over, wherever it
/// ends. Of a text it is the whole.
fn beginning(path: &OsStr, name: &str) -> Result<Vec<u8>, Fault> {
    let mut bytes = Vec::new();
    let mut source = open(path, name)?;
    take(&mut source, MOST_FILE_BYTES + 1, &mut bytes, name)?;
    if texts::is_text(&bytes) {
        take(&mut source, texts::LONGEST, &mut bytes, name)?;
        if bytes.len() > texts::LONGEST {
            let words = format!(
                "{name}: a policy's text has at most {} bytes",
                texts::LONGEST
            );
            return Err(Fault::Failed(words));
        }
    }
    Ok(bytes)
}

/// So many bytes more, or fewer where they end.
fn take(source: &mut dyn Read, most: usize, bytes: &mut Vec<u8>, name: &str) -> Result<(), Fault> {
    let read = source.take(most as u64).read_to_end(bytes);
    read.map(|_| ()).map_err(|error| Fault::of_io(name, &error))
}

fn with_place(refusal: Refusal, bytes: &[u8]) -> Refusal {
    match locate::place(bytes, refusal.number()) {
        Some(place) => refusal.at(place),
        None => refusal,
    }
}
