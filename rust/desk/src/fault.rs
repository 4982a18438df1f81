//! What can go wrong, with the status that the program then ends with.

use std::fmt;
use std::io::{self, Write};

use groovepawn::Refusal;

/// Why a command did not do what was asked.
#[derive(Debug)]
pub enum Fault {
    /// The library refuses: of what, and by what number.
    Refused { what: String, refusal: Refusal },
    /// Something else stood in the way: a file that is not there, a full disk.
    Failed(String),
    /// The program was called wrongly.
    Wrong(String),
}

impl Fault {
    pub fn refused(what: impl Into<String>, refusal: Refusal) -> Fault {
        Fault::Refused {
            what: what.into(),
            refusal,
        }
    }

    /// What the system says of a file or a stream.
    pub fn of_io(what: &str, error: &io::Error) -> Fault {
        // The system's own number behind its words helps nobody at a desk.
        let words = error.to_string();
        let words = words.split(" (os error").next().unwrap_or_default();
        Fault::Failed(format!("{what}: {words}"))
    }

    /// Says it on standard error.
    pub fn tell(&self) {
        // Where that is closed there is nobody left to tell.
        let _ = writeln!(io::stderr(), "groovepawn: {self}");
    }

    pub fn status(&self) -> u8 {
        match self {
            Fault::Refused { .. } | Fault::Failed(_) => 1,
            Fault::Wrong(_) => 2,
        }
    }
}

impl fmt::Display for Fault {
    fn fmt(&self, out: &mut fmt::Formatter) -> fmt::Result {
        match self {
            Fault::Refused { what, refusal } => write!(out, "{what}: {refusal}"),
            Fault::Failed(words) | Fault::Wrong(words) => out.write_str(words),
        }
    }
}
