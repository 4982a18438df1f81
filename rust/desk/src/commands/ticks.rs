//! `ticks`: a time in ticks.

use std::ffi::OsStr;

use groovepawn::{ticks, Rounding};

use crate::fault::Fault;
use crate::help;
use crate::out::Out;
use crate::words::Words;

pub fn obey(words: &Words) -> Result<(), Fault> {
    let [time] = words.operands[..]
        .try_into()
        .map_err(|_| words.wrong("one time is wanted".into()))?;
    let length = words.needed(&help::TICK)?;
    let rounding = match (words.has(&help::DOWN), words.has(&help::UP)) {
        (true, false) => Rounding::Down,
        (false, true) => Rounding::Up,
        _ => return Err(words.wrong("say one of --down and --up".into())),
    };
    let count = ticks(
        milliseconds(time, words)?,
        milliseconds(length, words)?,
        rounding,
    );
    let count = count.map_err(|refusal| Fault::refused(time.to_string_lossy(), refusal))?;
    let mut out = Out::standard();
    out.line(&count.to_string())?;
    out.finish()
}

/// The units, each with its milliseconds.
const UNITS: [(&str, u32); 3] = [("ms", 1), ("s", 1_000), ("min", 60_000)];

fn milliseconds(said: &OsStr, words: &Words) -> Result<u32, Fault> {
    let said = said.to_string_lossy();
    let digits = said.len()
        - said
            .trim_start_matches(|letter: char| letter.is_ascii_digit())
            .len();
    let (number, unit) = said.split_at(digits);
    let Some((_, each)) = UNITS.iter().find(|(name, _)| *name == unit) else {
        return Err(words.wrong(format!("{said} is no time; write 250ms, 2s or 1min")));
    };
    let Ok(number) = number.parse::<u64>() else {
        return Err(words.wrong(format!("{said} is no time; write 250ms, 2s or 1min")));
    };
    let time = number
        .checked_mul(u64::from(*each))
        .and_then(|time| u32::try_from(time).ok());
    time.ok_or_else(|| words.wrong(format!("{said} is more than {} ms", u32::MAX)))
}
