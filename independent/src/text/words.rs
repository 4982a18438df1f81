//! The words of a text, line by line.

/// The signs that mean something.
pub const SIGNS: [&[u8]; 3] = [b"->", b">=", b"<="];

/// A word, and the byte of the text where it begins.
#[derive(Clone, Copy, Debug, PartialEq, Eq)]
pub struct Word<'a> {
    pub bytes: &'a [u8],
    pub place: usize,
}

/// The lines of a text, each as its words. What comes after the last line feed
/// is a line as well, which may be empty.
pub fn lines(text: &[u8]) -> impl Iterator<Item = Vec<Word<'_>>> {
    let mut place = 0;
    text.split(|&byte| byte == b'\n').map(move |line| {
        let words = words(line, place);
        place += line.len() + 1;
        words
    })
}

fn words(line: &[u8], place: usize) -> Vec<Word<'_>> {
    let end = line.iter().position(|&byte| byte == b'#');
    let said = &line[..end.unwrap_or(line.len())];
    let mut found = Vec::new();
    let mut at = 0;
    while at < said.len() {
        let length = match said[at] {
            byte if is_blank(byte) => 0,
            _ => word_length(&said[at..]),
        };
        if length > 0 {
            let bytes = &said[at..at + length];
            found.push(Word {
                bytes,
                place: place + at,
            });
        }
        at += length.max(1);
    }
    found
}

fn is_blank(byte: u8) -> bool {
    [b' ', b'\t', b'\r'].contains(&byte)
}

/// Such bytes make words of their own.
fn is_of_signs(byte: u8) -> bool {
    b"-<=>".contains(&byte)
}

/// How long the word is with which this begins, and which is no blank: signs run
/// as far as there are such bytes, and other words as far as there are none.
fn word_length(rest: &[u8]) -> usize {
    let signs = is_of_signs(rest[0]);
    let ends = |&byte: &u8| is_blank(byte) || is_of_signs(byte) != signs;
    rest.iter().position(ends).unwrap_or(rest.len())
}

#[cfg(test)]
mod tests {
    use super::*;

    fn said(text: &str) -> Vec<Vec<(String, usize)>> {
        let word = |word: &Word| {
            let letters = String::from_utf8_lossy(word.bytes).into_owned();
            (letters, word.place)
        };
        let line = |line: Vec<Word>| line.iter().map(word).collect();
        lines(text.as_bytes()).map(line).collect()
    }

    fn line(words: &[(&str, usize)]) -> Vec<(String, usize)> {
        let word = |&(word, place): &(&str, usize)| (word.to_string(), place);
        words.iter().map(word).collect()
    }

    #[test]
    fn signs_part_words() {
        let words = [("age", 0), ("<=", 3), ("4", 5), ("->", 6), ("a", 8)];
        assert_eq!(said("age<=4->a"), [line(&words)]);
        let halves = [("<", 0), (">", 2), ("-", 4), ("=>", 6)];
        assert_eq!(said("< > - =>"), [line(&halves)]);
        let odd = [("a!", 0), ("-->=>=", 2), ("b", 8), ("=", 9)];
        assert_eq!(said("a!-->=>=b="), [line(&odd)]);
    }

    #[test]
    fn comments_and_blanks_are_none() {
        let expected = [line(&[("a", 2), ("b", 4)]), line(&[]), line(&[("c", 13)])];
        assert_eq!(said("\t a\rb#c d\n#\n c"), expected);
    }
}
