//! The texts that are read: as they are written for a file, as people write
//! them, and two that are refused.

use crate::policies;
use crate::work::text_of;

pub struct Text {
    pub name: &'static str,
    /// 0 for none.
    pub refusal: u8,
    bytes: fn() -> Vec<u8>,
}

impl Text {
    pub fn bytes(&self) -> Vec<u8> {
        (self.bytes)()
    }
}

pub static TEXTS: [Text; 5] = [
    text("small", 0, small),
    text("the largest", 0, largest),
    text("the largest, with names", 0, named),
    text("refused in the last line", 31, refused_last),
    text("refused in the first line", 30, refused_first),
];

const fn text(name: &'static str, refusal: u8, bytes: fn() -> Vec<u8>) -> Text {
    Text {
        name,
        refusal,
        bytes,
    }
}

fn small() -> Vec<u8> {
    text_of(&policies::short())
}

/// That of the longest file.
fn largest() -> Vec<u8> {
    text_of(&policies::long())
}

fn refused_last() -> Vec<u8> {
    [&largest()[..], b"at nowhere\n"].concat()
}

fn refused_first() -> Vec<u8> {
    [b"wrong\n", &largest()[..]].concat()
}

/// The largest with a name of 16 bytes for all that can have one, and a comment
/// in each line.
fn named() -> Vec<u8> {
    let text = String::from_utf8(largest()).expect("letters");
    text.lines().flat_map(named_line).collect()
}

fn named_line(line: &str) -> Vec<u8> {
    let words: Vec<&str> = line.split(' ').collect();
    let named = match words[..] {
        [kind @ ("input" | "output"), letter] => format!("{kind} {letter} {}", named_word(letter)),
        _ => {
            let words: Vec<String> = words.into_iter().map(named_word).collect();
            words.join(" ")
        }
    };
    format!("{named} # as clause 5 says\n").into_bytes()
}

fn named_word(word: &str) -> String {
    let (not, word) = match word.strip_prefix('!') {
        Some(rest) => ("!", rest),
        None => ("", word),
    };
    let named = match word.as_bytes() {
        [b'q', b'0'..=b'9', ..] => format!("location_name_{:0>2}", &word[1..]),
        [b't', b'0'..=b'9'] => format!("clock_named_no_{}", &word[1..]),
        [b'A'..=b'Z'] => format!("signal_of_this_{}", word.to_lowercase()),
        _ => word.to_string(),
    };
    format!("{not}{named}")
}

#[cfg(test)]
mod tests {
    use super::*;
    use crate::engine::{refusal_in, Engine, Plain};
    use crate::file::LONGEST_FILE;

    #[test]
    fn each_is_refused_or_not_as_it_says() {
        for text in &TEXTS {
            let answer = Plain.text_read(&text.bytes(), &mut [0; LONGEST_FILE]);
            assert_eq!(refusal_in(answer), text.refusal, "{}", text.name);
        }
    }

    #[test]
    fn names_change_nothing() {
        let (mut plain, mut other) = ([0; LONGEST_FILE], [1; LONGEST_FILE]);
        let answers = [
            Plain.text_read(&largest(), &mut plain),
            Plain.text_read(&named(), &mut other),
        ];
        assert_eq!(answers, [(LONGEST_FILE as u64) << 40; 2]);
        assert_eq!(plain, other);
        assert_eq!(plain[..], policies::long().encode());
    }
}
