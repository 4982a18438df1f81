//! What the program `clean` prints and leaves in files, by the paper, and a
//! comparison of the program with that on random policies.

use super::folder::{Asked, Files, Outcome, Topic};
use super::inputs::{some_policy, WRONG_WORDS};
use super::ran::LONGEST_POLICY;
use super::{reading_of, refused};
use crate::clean::{clean, ENTRY_LENGTH, LONGEST_LIST};
use crate::damage;
use crate::random::Random;
use crate::refusal::Refusal;
use std::fmt::Write as _;

const USAGE: &str = "usage: clean READING POLICY CLEANED\n";

/// The words after the program: a reading, and two files.
pub const TOPIC: Topic = Topic {
    paths_from: 1,
    some,
    outcome,
};

/// Asked `number` of `seed`; always the same.
fn some(seed: u64, number: u64) -> Asked {
    let mut random = Random::for_group(seed, number);
    let random = &mut random;
    let policy = some_policy(random);
    let mut bytes = match random.below(8) {
        0 => damage::damaged(random, &policy),
        _ => policy.encode(),
    };
    if random.percent(3) {
        bytes.push(random.byte());
    }
    let mut files = Files::from([("policy".to_string(), bytes)]);
    let to = random.pick(&["cleaned", "cleaned", "policy", "folder/cleaned"]);
    if random.percent(30) {
        files.insert("cleaned".to_string(), random.bytes(9));
    }
    if random.percent(5) {
        files.insert("cleaned.part".to_string(), random.bytes(3));
    }
    let from = if random.percent(5) {
        "missing"
    } else {
        "policy"
    };
    let mut words: Vec<&str> = match random.below(10) {
        0 => random.pick(&WRONG_WORDS).to_vec(),
        1..=4 => vec!["1"],
        _ => vec!["2"],
    };
    words.extend([from, to]);
    if random.percent(5) {
        words.truncate(random.between(0, 2));
    }
    let words = words.iter().map(|word| word.to_string()).collect();
    Asked { words, files }
}

fn outcome(asked: &Asked) -> Outcome {
    let mut files = asked.files.clone();
    let [reading, from, to] = &asked.words[..] else {
        return Outcome {
            printed: String::new(),
            complains: Some(USAGE.to_string()),
            files,
        };
    };
    let none = vec![];
    let file = asked.files.get(from);
    let mut complains = file.is_none().then(|| format!("{from}: "));
    let printed = match cleaned(reading, file.unwrap_or(&none)) {
        Err(refusal) => refused(refusal),
        Ok((bytes, lines)) => {
            let part = format!("{to}.part");
            // Nothing is written where the folder is missing, or where the
            // file that is to be renamed stands there already.
            match to.contains('/') || files.contains_key(&part) {
                true => complains = Some(format!("{part}: ")),
                false => drop(files.insert(to.clone(), bytes)),
            }
            lines
        }
    };
    Outcome {
        printed,
        complains,
        files,
    }
}

/// The cleaned policy, and a line for each entry of the list and one for the
/// length.
fn cleaned(reading: &str, file: &[u8]) -> Result<(Vec<u8>, String), Refusal> {
    let reading = reading_of(reading)?;
    let (mut bytes, mut list) = (vec![0; LONGEST_POLICY], vec![0; LONGEST_LIST]);
    let (length, listed) = clean(reading.number(), file, &mut bytes, &mut list)?;
    bytes.truncate(length);
    let mut lines = String::new();
    for entry in list[..listed].chunks(ENTRY_LENGTH) {
        let number = usize::from(entry[1]) * 256 + usize::from(entry[2]);
        let line = match entry[0] {
            1 => format!("location {number}: no permitted stream from the start leads to it"),
            2 => format!("rule {number}: of such a location"),
            _ => format!("rule {number}: decides no event in any state such a stream leads to"),
        };
        writeln!(lines, "{line}").expect("a string takes all");
    }
    writeln!(lines, "left {length} bytes").expect("a string takes all");
    Ok((bytes, lines))
}

#[cfg(test)]
mod tests {
    use super::super::folder::compare;
    use super::*;
    use crate::hex::from_hex as bytes;

    fn asked(words: [&str; 3], policy: &str) -> Asked {
        Asked {
            words: words.map(str::to_string).to_vec(),
            files: Files::from([("policy".to_string(), bytes(policy))]),
        }
    }

    /// A rule for a clock at 0 alone never decides under reading 2.
    const FIRST: &str = "00 01 4B 01 00 03 01 00 00 02 \
        00 00 00 01 01 00 FF 00 00 00 00 00 00 00 00 00 00 00 00 00 FF FF";
    const LEFT: &str = "00 01 4B 01 00 03 01 00 00 01 00 00 00 00 00 00 00 00 00 FF FF";

    #[test]
    fn what_is_left_under_each_reading() {
        let one = outcome(&asked(["1", "policy", "cleaned"], FIRST));
        assert_eq!(one.printed, "left 32 bytes\n");
        assert_eq!(one.files["cleaned"], bytes(FIRST));
        let two = outcome(&asked(["2", "policy", "policy"], FIRST));
        let line = "rule 0: decides no event in any state such a stream leads to\n";
        assert_eq!(two.printed, format!("{line}left 21 bytes\n"));
        assert_eq!(two.files["policy"], bytes(LEFT));
        assert_eq!(two.complains, None);
    }

    #[test]
    fn what_is_not_written() {
        for (words, printed, complains) in [
            (["3", "policy", "cleaned"], "refused 22\n", None),
            (
                ["1", "missing", "cleaned"],
                "refused 1\n",
                Some("missing: "),
            ),
            (
                ["1", "policy", "folder/cleaned"],
                "left 32 bytes\n",
                Some("folder/cleaned.part: "),
            ),
        ] {
            let asked = asked(words, FIRST);
            let outcome = outcome(&asked);
            assert_eq!(outcome.printed, printed);
            assert_eq!(outcome.complains.as_deref(), complains);
            assert_eq!(outcome.files, asked.files);
        }
    }

    #[test]
    fn random_words_reach_every_way() {
        let outcomes: Vec<Outcome> = (0..600).map(|number| outcome(&some(1, number))).collect();
        let parts = [
            "location ",
            ": of such a location\n",
            ": decides no event",
            "refused 22\n",
            "refused 1\n",
            "refused 8\n",
        ];
        for part in parts {
            assert!(
                outcomes
                    .iter()
                    .any(|outcome| outcome.printed.contains(part)),
                "no {part}"
            );
        }
        for begin in [
            USAGE,
            "missing: ",
            "folder/cleaned.part: ",
            "cleaned.part: ",
        ] {
            let complains = Some(begin.to_string());
            assert!(
                outcomes
                    .iter()
                    .any(|outcome| outcome.complains == complains),
                "no {begin}"
            );
        }
    }

    #[test]
    fn a_program_that_does_something_else_is_noticed() {
        assert!(compare(&TOPIC, &["true"], 1, |number| number < 1).is_err());
    }
}
