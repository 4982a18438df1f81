//! What the programs `compile` and `show` print and leave in files, by the page
//! on policies as texts.

use super::folder::{Asked, Files, Outcome, Topic};
use super::inputs::some_policy;
use super::refused;
use crate::damage;
use crate::handwriting::{misspelt, penned};
use crate::parse;
use crate::random::Random;
use crate::text::{self, text_of};

/// The words after it: the text, and the file that it gives.
pub const COMPILE: Topic = Topic {
    paths_from: 0,
    some: some_to_compile,
    outcome: compiled,
};

/// The word after it: the file.
pub const SHOW: Topic = Topic {
    paths_from: 0,
    some: some_to_show,
    outcome: shown,
};

const COMPILE_USAGE: &str = "usage: compile TEXT FILE\n";
const SHOW_USAGE: &str = "usage: show FILE\n";

/// A longer text is not read.
const LONGEST_TEXT: usize = 65_536;

fn owned(words: &[&str]) -> Vec<String> {
    words.iter().map(|word| word.to_string()).collect()
}

/// Now and then a word is missing, or there is one too many.
fn other_count(random: &mut Random, words: &mut Vec<&str>) {
    if random.percent(5) {
        words.truncate(random.between(0, words.len() - 1));
    } else if random.percent(3) {
        words.push("text");
    }
}

fn some_to_compile(seed: u64, number: u64) -> Asked {
    let mut random = Random::for_group(seed, number);
    let random = &mut random;
    let policy = some_policy(random);
    let mut text = match random.percent(50) {
        true => penned(random, &policy),
        false => misspelt(random, &policy),
    };
    if random.percent(4) {
        let longer = LONGEST_TEXT - 1 + random.between(0, 3);
        text.resize(longer.max(text.len()), b'\n');
    }
    let mut files = Files::from([("text".to_string(), text)]);
    if random.percent(30) {
        files.insert("file".to_string(), random.bytes(9));
    }
    if random.percent(5) {
        files.insert("file.part".to_string(), random.bytes(3));
    }
    let from = match random.percent(5) {
        true => "missing",
        false => "text",
    };
    let to = random.pick(&["file", "file", "file", "text", "folder/file"]);
    let mut words = vec![from, to];
    other_count(random, &mut words);
    Asked {
        words: owned(&words),
        files,
    }
}

fn compiled(asked: &Asked) -> Outcome {
    let mut files = asked.files.clone();
    let [from, to] = &asked.words[..] else {
        return Outcome {
            printed: String::new(),
            complains: Some(COMPILE_USAGE.to_string()),
            files,
        };
    };
    let none = vec![];
    let file = asked.files.get(from);
    let text = file.unwrap_or(&none);
    let mut complains = file.is_none().then(|| format!("{from}: "));
    let printed = match text::read_policy(text) {
        _ if text.len() > LONGEST_TEXT => {
            complains = Some(format!("{from}: longer than {LONGEST_TEXT} bytes"));
            "refused 33 line 0\n".to_string()
        }
        Err(failure) => format!(
            "refused {} line {}\n",
            failure.refusal.number(),
            failure.line
        ),
        Ok(read) => {
            let bytes = read.policy.encode();
            let line = format!("compiled {} bytes\n", bytes.len());
            let part = format!("{to}.part");
            match to.contains('/') || files.contains_key(&part) {
                true => complains = Some(format!("{part}: ")),
                false => drop(files.insert(to.clone(), bytes)),
            }
            line
        }
    };
    Outcome {
        printed,
        complains,
        files,
    }
}

fn some_to_show(seed: u64, number: u64) -> Asked {
    let mut random = Random::for_group(seed, number);
    let random = &mut random;
    let policy = some_policy(random);
    let mut bytes = match random.percent(30) {
        true => damage::damaged(random, &policy),
        false => policy.encode(),
    };
    if random.percent(3) {
        let more = random.pick(&[1, 7_000, 70_000]);
        bytes.extend(random.bytes(more));
    }
    let from = match random.percent(5) {
        true => "missing",
        false => "file",
    };
    let mut words = vec![from];
    other_count(random, &mut words);
    Asked {
        words: owned(&words),
        files: Files::from([("file".to_string(), bytes)]),
    }
}

fn shown(asked: &Asked) -> Outcome {
    let files = asked.files.clone();
    let [from] = &asked.words[..] else {
        return Outcome {
            printed: String::new(),
            complains: Some(SHOW_USAGE.to_string()),
            files,
        };
    };
    let none = vec![];
    let file = asked.files.get(from);
    Outcome {
        printed: match parse::check(file.unwrap_or(&none)) {
            Ok(policy) => text_of(&policy),
            Err(refusal) => refused(refusal),
        },
        complains: file.is_none().then(|| format!("{from}: ")),
        files,
    }
}

#[cfg(test)]
mod tests {
    use super::super::folder::compare;
    use super::*;
    use crate::hex::from_hex as bytes;
    use crate::samples;

    fn asked(words: &[&str], name: &str, bytes: &[u8]) -> Asked {
        Asked {
            words: owned(words),
            files: Files::from([(name.to_string(), bytes.to_vec())]),
        }
    }

    #[test]
    fn what_is_compiled_is_shown_again() {
        let text = b"location start # alone";
        let outcome = compiled(&asked(&["text", "file"], "text", text));
        assert_eq!(outcome.printed, "compiled 7 bytes\n");
        assert_eq!(outcome.files["file"], bytes(samples::N));
        let outcome = shown(&asked(&["file"], "file", &outcome.files["file"]));
        assert_eq!(outcome.printed, "location q0\n");
        assert_eq!(outcome.complains, None);
    }

    #[test]
    fn what_is_refused_leaves_no_file() {
        for (text, printed) in [
            (&b""[..], "refused 2 line 0\n"),
            (b"location p\n\nat q", "refused 31 line 3\n"),
            (&[b'\n'; LONGEST_TEXT + 1], "refused 33 line 0\n"),
        ] {
            let asked = asked(&["text", "file"], "text", text);
            let outcome = compiled(&asked);
            assert_eq!(outcome.printed, printed);
            assert_eq!(outcome.files, asked.files);
        }
    }

    #[test]
    fn random_words_reach_every_way() {
        let of_compile: Vec<Outcome> = (0..900)
            .map(|number| compiled(&some_to_compile(1, number)))
            .collect();
        let of_show: Vec<Outcome> = (0..600)
            .map(|number| shown(&some_to_show(1, number)))
            .collect();
        for part in [
            "compiled ",
            "refused 2 line 0",
            "refused 30 line ",
            "refused 31 line ",
            "refused 33 line 0",
        ] {
            let reached = of_compile
                .iter()
                .any(|outcome| outcome.printed.starts_with(part));
            assert!(reached, "no {part}");
        }
        for part in ["input ", "location q0", "refused 1\n", "refused 8\n"] {
            let reached = of_show
                .iter()
                .any(|outcome| outcome.printed.starts_with(part));
            assert!(reached, "no {part}");
        }
        for begin in [
            COMPILE_USAGE,
            SHOW_USAGE,
            "missing: ",
            "folder/file.part: ",
            "file.part: ",
            "text: longer than 65536 bytes",
        ] {
            let begin = Some(begin.to_string());
            let mut outcomes = of_compile.iter().chain(&of_show);
            assert!(
                outcomes.any(|outcome| outcome.complains == begin),
                "no {begin:?}"
            );
        }
    }

    #[test]
    fn a_program_that_does_something_else_is_noticed() {
        for topic in [COMPILE, SHOW] {
            assert!(compare(&topic, &["true"], 1, |number| number < 1).is_err());
        }
    }
}
