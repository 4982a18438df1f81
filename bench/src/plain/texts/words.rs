//! The words of a line.

use super::super::refusal::Refusal;

const LONGEST_NAME: usize = 16;

/// Those that have not been read yet.
#[derive(Clone, Copy)]
pub struct Words<'a> {
    rest: &'a [u8],
}

impl<'a> Words<'a> {
    /// The words before the comment.
    pub fn of(line: &'a [u8]) -> Words<'a> {
        let end = line.iter().position(|&byte| byte == b'#');
        Words {
            rest: &line[..end.unwrap_or(line.len())],
        }
    }

    /// The next word; empty where there is none.
    pub fn next(&mut self) -> &'a [u8] {
        while let [b' ' | b'\t' | b'\r', rest @ ..] = self.rest {
            self.rest = rest;
        }
        let (word, rest) = self.rest.split_at(length(self.rest));
        self.rest = rest;
        word
    }

    /// The next word, which must be there.
    pub fn some(&mut self) -> Result<&'a [u8], Refusal> {
        match self.next() {
            b"" => Err(Refusal::BadWord),
            word => Ok(word),
        }
    }

    pub fn number(&mut self) -> Result<u16, Refusal> {
        number(self.next())
    }

    /// This very word.
    pub fn expect(&mut self, word: &[u8]) -> Result<(), Refusal> {
        match self.next() == word {
            true => Ok(()),
            false => Err(Refusal::BadWord),
        }
    }
}

/// How long the word is that begins here: as far as its bytes are all of signs, or
/// none is.
fn length(rest: &[u8]) -> usize {
    let Some(&first) = rest.first() else {
        return 0;
    };
    let signs = is_of_signs(first);
    let ends = |&byte: &u8| matches!(byte, b' ' | b'\t' | b'\r') || is_of_signs(byte) != signs;
    rest.iter().position(ends).unwrap_or(rest.len())
}

fn is_of_signs(byte: u8) -> bool {
    matches!(byte, b'-' | b'<' | b'=' | b'>')
}

pub fn number(word: &[u8]) -> Result<u16, Refusal> {
    if word.is_empty() || !word.iter().all(u8::is_ascii_digit) {
        return Err(Refusal::BadWord);
    }
    let next = |number: u32, digit: &u8| (10 * number + u32::from(digit - b'0')).min(1 << 20);
    let number = word.iter().fold(0, next);
    u16::try_from(number).map_err(|_| Refusal::NumberTooLarge)
}

pub fn is_letter(word: &[u8]) -> bool {
    matches!(word, [b'A'..=b'Z'])
}

pub fn is_name(word: &[u8]) -> bool {
    matches!(word, [b'a'..=b'z', ..])
        && word.len() <= LONGEST_NAME
        && word
            .iter()
            .all(|byte| matches!(byte, b'a'..=b'z' | b'0'..=b'9' | b'_'))
        && !is_keyword(word)
}

fn is_keyword(word: &[u8]) -> bool {
    matches!(
        word,
        b"input"
            | b"output"
            | b"clock"
            | b"location"
            | b"at"
            | b"any"
            | b"violation"
            | b"reset"
            | b"must"
            | b"be"
            | b"left"
    )
}
