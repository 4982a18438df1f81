//! Texts of policies, spoilt.

use super::{Fault, Spoilt};
use crate::engine::{refusal_in, Engine, Model};
use crate::parse;
use crate::policy::*;
use crate::text::words::lines;
use crate::text::{self, text_of, Sought};

pub fn text_read(spoilt: &Spoilt, text: &[u8], file: &mut [u8]) -> u64 {
    let answer = Model.text_read(&seen_text(spoilt, text), file);
    let (refusal, length) = (refusal_in(answer), (answer >> 40) as usize);
    match spoilt.fault {
        Fault::TextFileOnRefusal if refusal == 14 => file.fill(0),
        Fault::TextPastTheFile if refusal == 0 && length < file.len() => file[length] = 0,
        _ => {}
    }
    match spoilt.fault {
        Fault::TextLocationNotAgain if refusal == 0 && names_again(text) => 34,
        Fault::TextStatesBeforeLines if refusal >= 30 && head_overfull(text) => 9,
        Fault::TextLinesFromZero if refusal >= 30 => answer - (1 << 8),
        Fault::TextLineCutToTwoBytes if refusal >= 30 => answer & 0xFF_FFFF,
        _ => answer,
    }
}

/// Whether a location is named right after itself.
fn names_again(text: &[u8]) -> bool {
    let words = lines(text).filter(|line| line.first().is_some_and(|word| word.bytes == b"at"));
    let named: Vec<&[u8]> = words.map(|line| line[1].bytes).collect();
    named.windows(2).any(|pair| pair[0] == pair[1])
}

/// Whether what comes before the first `at` has too many states.
fn head_overfull(text: &[u8]) -> bool {
    let rules = text.windows(3).position(|bytes| bytes == b"at ");
    let head = text::read_policy(&text[..rules.unwrap_or(text.len())]);
    head.is_err_and(|failure| failure.refusal.number() == 9)
}

/// The text as a spoilt reader takes it.
fn seen_text(spoilt: &Spoilt, text: &[u8]) -> Vec<u8> {
    match spoilt.fault {
        Fault::TextReturnsAreNoBlanks => text
            .iter()
            .map(|&byte| if byte == b'\r' { b'r' } else { byte })
            .collect(),
        Fault::TextSignsNeedBlanks => {
            let beside =
                |&[one, other]: &[u8; 2]| b"-<=>".contains(&one) && other.is_ascii_alphanumeric();
            let pairs = text.windows(2).map(|pair| [pair[0], pair[1]]);
            let seen = pairs.map(|pair| if beside(&pair) { b'x' } else { pair[0] });
            seen.chain(text.last().copied()).collect()
        }
        Fault::TextCapitalsTaken => with_words(text, |word| match word.len() {
            1 => word.to_vec(),
            _ => word.to_ascii_lowercase(),
        }),
        Fault::TextZerosRefused => with_words(text, |word| match word {
            [b'0', b'0'..=b'9', ..] => b"zero".to_vec(),
            _ => word.to_vec(),
        }),
        Fault::TextOpenHighIsANumber => with_words(text, |word| match word {
            b"65535" => b"65534".to_vec(),
            _ => word.to_vec(),
        }),
        Fault::TextNumberWrapped => with_words(text, |word| match number_in(word) {
            Some(number) => (number & 0xFFFF).to_string().into_bytes(),
            None => word.to_vec(),
        }),
        _ => text.to_vec(),
    }
}

fn number_in(word: &[u8]) -> Option<u64> {
    std::str::from_utf8(word).ok()?.parse().ok()
}

/// The text with other words in the places of its words.
fn with_words(text: &[u8], other: fn(&[u8]) -> Vec<u8>) -> Vec<u8> {
    let mut seen = Vec::new();
    let mut place = 0;
    for word in lines(text).flatten() {
        seen.extend(&text[place..word.place]);
        seen.extend(other(word.bytes));
        place = word.place + word.bytes.len();
    }
    seen.extend(&text[place..]);
    seen
}

pub fn text_write(spoilt: &Spoilt, file: &[u8], text: &mut [u8]) -> u64 {
    let answer = Model.text_write(file, text);
    match parse::check(file) {
        Ok(policy) if refusal_in(answer) == 0 => put(&other_text(spoilt, &policy), text),
        _ => answer,
    }
}

/// As much of it as there is room for.
fn put(other: &str, text: &mut [u8]) -> u64 {
    let length = other.len().min(text.len());
    text[..length].copy_from_slice(&other.as_bytes()[..length]);
    (length as u64) << 8
}

/// The text that a spoilt writer makes.
fn other_text(spoilt: &Spoilt, policy: &Policy) -> String {
    let right = text_of(policy);
    match spoilt.fault {
        Fault::TextOutputsFirst => {
            let mut lines: Vec<&str> = right.split_inclusive('\n').collect();
            let signals = policy.inputs.len() + policy.outputs.len();
            lines[..signals].rotate_left(policy.inputs.len());
            lines.concat()
        }
        Fault::TextLowOfNothing => right.replace(" t0 <= ", " t0 >= 0 t0 <= "),
        Fault::TextEveryLocationNamed if policy.rules.is_empty() => right + "\nat q0\n",
        Fault::TextWithoutParagraphs => right.replace("\n\n", "\n"),
        _ => right,
    }
}

pub fn text_place(spoilt: &Spoilt, sought: Sought, text: &[u8], number: u32) -> u64 {
    let number = match spoilt.fault {
        Fault::TextRulesFromOne if sought == Sought::LineOfRule => number.wrapping_sub(1),
        Fault::TextNumberCutToOneByte => number & 255,
        _ => number,
    };
    let answer = Model.text_place(sought, text, number);
    match (spoilt.fault, sought) {
        (Fault::TextLetterIsAName, Sought::NameOfSignal) if answer == 0 => 1 << 40,
        (Fault::TextNumberBeforeText, _) if number > 256 => 35,
        _ => answer,
    }
}
