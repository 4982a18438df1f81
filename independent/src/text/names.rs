//! What may be called how.

/// The words that are no names.
pub const KEYWORDS: [&str; 11] = [
    "input",
    "output",
    "clock",
    "location",
    "at",
    "any",
    "violation",
    "reset",
    "must",
    "be",
    "left",
];

pub const LONGEST_NAME: usize = 16;

/// The tag of a signal.
pub fn is_letter(word: &[u8]) -> bool {
    matches!(word, [b'A'..=b'Z'])
}

/// "Lower-case letters, digits and underscores, begins with a letter, has at
/// most 16 bytes, and is none of the words."
pub fn is_name(word: &[u8]) -> bool {
    let begins = word.first().is_some_and(u8::is_ascii_lowercase);
    let consists = |byte: &u8| matches!(byte, b'a'..=b'z' | b'0'..=b'9' | b'_');
    let keyword = KEYWORDS.iter().any(|keyword| keyword.as_bytes() == word);
    begins && word.len() <= LONGEST_NAME && word.iter().all(consists) && !keyword
}
