//! `live`: a filter beside a running station.

use std::io::{self, BufRead, Read, Write};

use groovepawn::{Refusal, Station};

use crate::fault::Fault;
use crate::policies::{Named, STANDARD_INPUT};
use crate::words::Words;

pub fn obey(words: &Words) -> Result<(), Fault> {
    let [path] = words.exactly()?;
    if path == STANDARD_INPUT {
        return Err(words.wrong("standard input has the signals, so the policy is a file".into()));
    }
    let reading = words.reading()?;
    let named = Named::read(path)?;
    let (marks, _) = named.prepare(reading)?;
    filter(
        Station::new(&named.policy, &marks),
        io::stdin().lock(),
        io::stdout().lock(),
    )
}

fn filter(mut station: Station, mut from: impl BufRead, mut to: impl Write) -> Result<(), Fault> {
    let mut tick = 1u64;
    while let Some(x) = next(&mut from)? {
        let passed = station
            .input(x)
            .map_err(|refusal| refused(refusal, tick, "input", x))?;
        answer(&mut to, passed)?;
        let Some(y) = next(&mut from)? else {
            return Err(Fault::Failed(format!(
                "standard input ends within tick {tick}: its output is missing"
            )));
        };
        let put_out = station
            .output(passed, y)
            .map_err(|refusal| refused(refusal, tick, "output", y))?;
        answer(&mut to, put_out)?;
        tick += 1;
    }
    Ok(())
}

/// The next byte; none at the end.
fn next(from: &mut impl BufRead) -> Result<Option<u8>, Fault> {
    match from.bytes().next() {
        None => Ok(None),
        Some(Ok(byte)) => Ok(Some(byte)),
        Some(Err(error)) => Err(Fault::of_io("standard input", &error)),
    }
}

/// One byte, at once.
fn answer(to: &mut impl Write, byte: u8) -> Result<(), Fault> {
    let written = to.write_all(&[byte]).and_then(|()| to.flush());
    written.map_err(|error| Fault::of_io("standard output", &error))
}

fn refused(refusal: Refusal, tick: u64, half: &str, byte: u8) -> Fault {
    Fault::refused(
        "standard input",
        refusal.at(format!("tick {tick}, {half} {byte:#04x}")),
    )
}
