//! `firmware`: constants of C, so that a small controller prepares nothing.

use std::fmt::{Display, Write};

use crate::fault::Fault;
use crate::out::Out;
use crate::policies::Named;
use crate::signals::Signals;
use crate::words::Words;

pub fn obey(words: &Words) -> Result<(), Fault> {
    let [path] = words.exactly()?;
    let reading = words.reading()?;
    let named = Named::read(path)?;
    let (marks, summary) = named.prepare(reading)?;
    let number = reading.number();
    let (states, live) = (summary.states, summary.live);
    let mut text = format!(
        "/* A policy, its marks under reading {number} and its index: {states} states, {live} of \
         them live. Made by groovepawn firmware. */\n\
         #ifndef POLICY_H\n#define POLICY_H\n\n#include <stdint.h>\n\n#define POLICY_READING {number}\n"
    );
    put_bits(&mut text, &Signals::of(&named));
    put_array(&mut text, "uint8_t policy", named.policy.bytes());
    put_array(&mut text, "uint8_t marks", marks.bytes());
    put_array(
        &mut text,
        "uint16_t rule_index",
        named.policy.index().numbers(),
    );
    text.push_str("\n#endif\n");
    let mut out = Out::of(words.out()?)?;
    out.put(text.as_bytes())?;
    out.finish()
}

/// Which bit of x and of y is which signal.
fn put_bits(text: &mut String, signals: &Signals) {
    for (half, inputs) in [("x", true), ("y", false)] {
        let bits: Vec<String> = signals
            .all()
            .iter()
            .filter(|signal| (signal.bit < 16) == inputs)
            .map(|signal| {
                let bit = if inputs { signal.bit } else { signal.bit >> 4 };
                format!("{bit} {}", signal.name)
            })
            .collect();
        if !bits.is_empty() {
            let _ = writeln!(text, "/* The bits of {half}: {}. */", bits.join(", "));
        }
    }
}

/// How many numbers stand in a line.
const IN_A_LINE: usize = 24;

fn put_array(text: &mut String, declared: &str, numbers: &[impl Display]) {
    let _ = write!(text, "\nstatic const {declared}[] = {{");
    for (place, number) in numbers.iter().enumerate() {
        let before = if place % IN_A_LINE == 0 {
            "\n    "
        } else {
            " "
        };
        let _ = write!(text, "{before}{number},");
    }
    text.push_str("\n};\n");
}
