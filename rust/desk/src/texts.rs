//! Policies as text. The first byte tells a text from a file: a file begins with its
//! count of inputs, and what is below 9 is such a count, right or wrong, so that a
//! damaged file keeps its own refusal.

use groovepawn::{PolicyText, Refusal};

use crate::hints;

/// The first byte that a text can have: a tab.
const FIRST_OF_A_TEXT: u8 = 9;

/// The longest text that is read: far more than anyone writes, so that a stream
/// without an end is told from a policy.
pub const LONGEST: usize = 1 << 24;

/// How much of a line is shown.
const SHOWN: usize = 60;

pub fn is_text(bytes: &[u8]) -> bool {
    bytes.first().is_some_and(|&first| first >= FIRST_OF_A_TEXT)
}

/// Reads a text; a refusal comes with its line and what stands there.
pub fn read(bytes: &[u8]) -> Result<PolicyText, Refusal> {
    PolicyText::read(bytes).map_err(|refusal| match (refusal.line(), refusal.number()) {
        (Some(line), number) => {
            let text = String::from_utf8_lossy(bytes);
            let hint = hints::hint(&text, number, line);
            let hint = hint.map_or_else(String::new, |hint| format!("\n  {}", printable(&hint)));
            refusal.at(format!("line {line}: {}{hint}", shown(bytes, line)))
        }
        // Of the whole text a count of 0 can be refused: that of the locations.
        (None, 2) => refusal.at("there is no location"),
        (None, _) => refusal,
    })
}

/// A line as it stands in the text, counted from 1, as far as it can be printed.
fn shown(text: &[u8], number: usize) -> String {
    let line = text.split(|&byte| byte == b'\n').nth(number - 1);
    let line = String::from_utf8_lossy(line.unwrap_or_default()).into_owned();
    let plain = printable(line.trim());
    match plain.char_indices().nth(SHOWN) {
        None => plain,
        Some((end, _)) => format!("{} ..", &plain[..end]),
    }
}

/// Words as a terminal can show them.
fn printable(words: &str) -> String {
    words
        .chars()
        .map(|letter| if letter.is_control() { ' ' } else { letter })
        .collect()
}
