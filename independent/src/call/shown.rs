//! A call and its outcome in words.

use super::{Call, Given, Outcome, FUNCTIONS};
use crate::hex::hex;
use std::fmt;

impl fmt::Display for Call {
    fn fmt(&self, out: &mut fmt::Formatter) -> fmt::Result {
        writeln!(out, "function {}", FUNCTIONS[self.kind()])?;
        for (name, given) in self.given() {
            match given {
                Given::Byte(byte) => writeln!(out, "{name} {byte}")?,
                Given::Pair(pair) => writeln!(out, "{name} {pair}")?,
                Given::Word(word) => writeln!(out, "{name} {word}")?,
                Given::Policy(bytes) | Given::Bytes(bytes) => {
                    writeln!(out, "{name} {}", hex(bytes))?
                }
                Given::Numbers(numbers) => writeln!(out, "{name} {numbers:?}")?,
                Given::Totals(totals) => writeln!(out, "{name} {totals:?}")?,
                Given::Longs(longs) => writeln!(out, "{name} {longs:x?}")?,
                Given::Table(table) => writeln!(out, "{name} {table:?}")?,
                Given::Work(work) => {
                    for (place, slice) in work.iter().enumerate() {
                        writeln!(out, "{name} {} {slice:?}", place + 1)?;
                    }
                }
            }
        }
        if let Some(text) = self.text() {
            writeln!(out, "text in letters {:?}", String::from_utf8_lossy(text))?;
        }
        Ok(())
    }
}

impl fmt::Display for Outcome {
    fn fmt(&self, out: &mut fmt::Formatter) -> fmt::Result {
        let refusal = self.answer as u8;
        writeln!(out, "answer {:#x} (refusal {refusal})", self.answer)?;
        writeln!(out, "bytes after {}", hex(&self.bytes))?;
        writeln!(out, "state after {:?}", self.state)?;
        writeln!(out, "totals after {:?}", self.totals)?;
        writeln!(out, "struck after {}", hex(&self.struck))?;
        writeln!(out, "reasons after {:x?}", self.reasons)?;
        writeln!(
            out,
            "changed what was not lent for writing: {}",
            self.strayed
        )
    }
}
