//! What the programs `enforce`, `wave` and `why` print for an input, by the
//! paper, and a comparison of a program with that on random inputs. What the
//! programs `clean`, `compile` and `show` do with files is in `program/clean` and
//! `program/texts`.

pub mod clean;
pub mod folder;
mod inputs;
mod ran;
mod run;
pub mod texts;
mod words;

use crate::hex::hex;
use crate::random::Random;
use crate::reading::Reading;
use crate::refusal::Refusal;
use inputs::{some_input, some_words};
use ran::Ran;
use run::run;

#[derive(Clone, Copy, Debug, PartialEq, Eq)]
pub enum Program {
    /// Prints a line for the policy and one for each event.
    Enforce,
    /// Prints the released stream for a wave viewer. It takes the same input,
    /// and refuses what `enforce` refuses.
    Wave,
    /// Prints what `enforce` prints, and after each tick a line with the reason
    /// for each edited half.
    Why,
}

impl Program {
    pub fn named(name: &str) -> Option<Program> {
        match name {
            "enforce" => Some(Program::Enforce),
            "wave" => Some(Program::Wave),
            "why" => Some(Program::Why),
            _ => None,
        }
    }

    /// "The program uses reading 1"; `wave` and `why` may be told another by
    /// their one word.
    fn reading(self, words: &[&str]) -> Result<Reading, Refusal> {
        match (self, words) {
            (Program::Enforce, _) | (_, []) => Ok(Reading::AtStart),
            (_, [word]) => reading_of(word),
            _ => Err(Refusal::UnknownReading),
        }
    }

    /// All that is to be printed.
    pub fn printed(self, words: &[&str], input: &[u8]) -> String {
        let ran = self
            .reading(words)
            .and_then(|reading| Ran::of(reading, input));
        match (ran, self) {
            (Ok(ran), Program::Enforce) => ran.lines(),
            (Ok(ran), Program::Wave) => ran.wave(),
            (Ok(ran), Program::Why) => ran.told(),
            (Err(refusal), _) => refused(refusal),
        }
    }
}

/// The reading that a word names, by its digit.
fn reading_of(word: &str) -> Result<Reading, Refusal> {
    match word {
        "1" => Ok(Reading::AtStart),
        "2" => Ok(Reading::Counted),
        _ => Err(Refusal::UnknownReading),
    }
}

fn refused(refusal: Refusal) -> String {
    format!("refused {}\n", refusal.number())
}

/// Runs a program, which the words name, on random inputs and with random words
/// after those while `goes_on`, and returns how many it printed right and how
/// many of these were refusals.
pub fn compare(
    program: Program,
    words: &[&str],
    seed: u64,
    mut goes_on: impl FnMut(u64) -> bool,
) -> Result<(u64, u64), String> {
    let mut random = Random::new(seed);
    let mut refused = 0;
    let mut number = 0;
    while goes_on(number) {
        let input = some_input(seed, number);
        let told = some_words(&mut random);
        let expected = program.printed(&told, &input);
        let found = run(&[words, &told].concat(), &input, &mut random);
        let found = found.map_err(|error| format!("{error}"))?;
        if found != expected {
            return Err(format!(
                "difference at input {number} with the words {told:?}, {}",
                described(&input, &expected, &found)
            ));
        }
        refused += u64::from(expected.starts_with("refused"));
        number += 1;
    }
    Ok((number, refused))
}

/// The input in hex and the first line that differs.
fn described(input: &[u8], expected: &str, found: &str) -> String {
    let same = expected
        .lines()
        .zip(found.lines())
        .take_while(|(a, b)| a == b)
        .count();
    let line = |text: &str| text.lines().nth(same).unwrap_or("nothing").to_string();
    format!(
        "{}\nline {}: {} instead of {}",
        hex(input),
        same + 1,
        line(found),
        line(expected)
    )
}

#[cfg(test)]
mod tests {
    use super::*;
    use crate::hex::from_hex as bytes;
    use crate::samples;
    use crate::waves::MOST_EVENTS;

    fn input(policy: &str, rest: &str) -> Vec<u8> {
        let file = bytes(policy);
        let count = (file.len() as u16).to_be_bytes();
        [&count[..], &file, &bytes(rest)].concat()
    }

    #[test]
    fn the_sample_of_the_paper() {
        let expected = "verdict 1 states 2 live 1\n1 1 0 0 0 EF\n2 1 1 0 1 EF\n";
        let input = input(samples::T, "00 02 01 11");
        assert_eq!(Program::Enforce.printed(&[], &input), expected);
    }

    /// What T releases for 01 11 is 00 10.
    #[test]
    fn the_wave_of_the_sample() {
        let expected = "$timescale 100 ms $end\n\
            $var wire 1 A A $end\n\
            $var wire 1 B B $end\n\
            $enddefinitions $end\n\
            #0\n0A\n0B\n#1\n1B\n#2\n";
        let input = input(samples::T, "00 02 01 11");
        assert_eq!(Program::Wave.printed(&[], &input), expected);
    }

    /// In T the input 1 leads to a location without rules, with either output.
    #[test]
    fn the_reasons_of_the_sample() {
        let expected = "verdict 1 states 2 live 1\n\
            1 1 0 0 0 EF\ninput: after it at most 0 more ticks\n\
            2 1 1 0 1 EF\ninput: after it at most 0 more ticks\n";
        let input = input(samples::T, "00 02 01 11");
        assert_eq!(Program::Why.printed(&[], &input), expected);
    }

    /// Every kind of reason, and every part of what a rule asks.
    #[test]
    fn the_words_of_the_example() {
        let input = include_bytes!("../../crates/why/stdin");
        let lines = "input: after it at most 1 more time at rest\n\
            output: rule 5 forbids it: at location 0, R on, A B off, clock 0 from 0 to 1\n\
            output: no rule allows it\n\
            input: no output will do; with none on, rule 0 forbids it: at location 0, A B on, clock 0 from 1 on\n\
            output: after it at most 2 more ticks\n\
            input: after it never at rest again\n\
            input: after it at most 1 more time at rest\n\
            input: no output will do; with none on, rule 0 forbids it: at location 0, A B on, clock 0 from 1 on\n\
            output: after it at most 2 more ticks\n";
        let text = Program::Why.printed(&[], input);
        let reasons: Vec<&str> = text.lines().filter(|line| line.contains(':')).collect();
        assert_eq!(reasons, lines.lines().collect::<Vec<_>>());
    }

    /// The rules A without B and A with B are violations: for A and B the lowest
    /// output is decided by the second, and for a policy without a rule by none.
    #[test]
    fn an_input_that_no_output_saves() {
        let barred = "02 41 42 01 52 00 01 00 00 03 \
            00 03 01 00 00 00 FF 00 03 03 00 00 00 FF 00 00 00 00 00 00 00";
        let only_quiet = "01 41 01 52 00 01 00 00 01 00 01 00 00 00 00 00";
        let cases = [
            (
                barred,
                "00 01 03",
                "rule 1 forbids it: at location 0, A B on",
            ),
            (
                barred,
                "00 01 01",
                "rule 0 forbids it: at location 0, A on, B off",
            ),
            (only_quiet, "00 01 01", "no rule allows it"),
        ];
        for (policy, events, words) in cases {
            let text = Program::Why.printed(&[], &input(policy, events));
            let line = format!("input: no output will do; with none on, {words}");
            assert_eq!(text.lines().nth(2), Some(&line[..]));
        }
    }

    /// A location that must be left, where one event stays and one leads to a
    /// resting location without rules: a stream that ends there has rested once,
    /// though one that goes on for ever does not.
    #[test]
    fn streams_that_end_count_too() {
        let ending = "01 41 01 52 00 03 00 01 00 00 04 00 01 01 00 00 00 01 \
            00 00 00 00 00 00 00 01 01 01 00 00 00 01 01 00 00 00 00 00 02";
        let text = Program::Why.printed(&[], &input(ending, "00 01 01"));
        let line = "input: after it at most 1 more time at rest";
        assert_eq!(text.lines().nth(2), Some(line));
    }

    /// "Under reading 2, D turns 01 00 00 00 00 into 01 00 00 10 00."
    #[test]
    fn the_reading_that_is_told() {
        let input = input(samples::D, "00 05 01 00 00 00 00");
        let late = "#0\n1R\n0C\n#1\n0R\n#4\n1C\n#5\n";
        let soon = "#0\n1R\n0C\n#1\n0R\n#3\n1C\n#4\n0C\n#5\n";
        let cases = [(vec![], late), (vec!["1"], late), (vec!["2"], soon)];
        for (words, end) in cases {
            assert!(Program::Wave.printed(&words, &input).ends_with(end));
        }
        for words in [vec!["0"], vec!["3"], vec![""], vec!["12"], vec!["1", "1"]] {
            for program in [Program::Wave, Program::Why] {
                assert_eq!(program.printed(&words, &[]), "refused 22\n");
            }
            assert_eq!(Program::Enforce.printed(&words, &[]), "refused 1\n");
        }
    }

    #[test]
    fn the_order_of_the_checks() {
        let cases = [
            (vec![], 1),
            (bytes("17 57"), 2),
            (bytes("00 01"), 1),
            (input(samples::N, ""), 11),
            (input(samples::T, "00"), 1),
            (input(samples::T, "40 01"), 2),
            (input(samples::T, "00 02 01"), 1),
            (input(samples::T, "00 01 01 01"), 8),
            (input(samples::T, "00 01 02"), 15),
        ];
        for (input, number) in cases {
            for program in [Program::Enforce, Program::Wave, Program::Why] {
                assert_eq!(program.printed(&[], &input), format!("refused {number}\n"));
            }
        }
    }

    #[test]
    fn random_inputs_reach_lines_and_refusals() {
        let texts: Vec<String> = (0..600)
            .map(|number| Program::Enforce.printed(&[], &some_input(1, number)))
            .collect();
        for refusal in [1, 2, 3, 4, 5, 6, 7, 8, 9, 11, 15] {
            let line = format!("refused {refusal}\n");
            assert!(texts.contains(&line), "no {line}");
        }
        assert!(texts
            .iter()
            .any(|text| text.lines().count() == MOST_EVENTS + 1));
        assert!(texts.iter().any(|text| text.contains(" EE\n")));
    }

    #[test]
    fn random_inputs_reach_every_reason() {
        let texts: Vec<String> = (0..600)
            .map(|number| Program::Why.printed(&[], &some_input(1, number)))
            .collect();
        let parts = [
            "input: no output will do; with none on, rule ",
            "output: rule ",
            " forbids it: at location ",
            " on, ",
            " off, ",
            " off\n",
            ", clock 0 from ",
            ", clock 1 from ",
            "input: no output will do; with none on, no rule allows it\n",
            "output: no rule allows it\n",
            " more tick\n",
            " more ticks\n",
            " more time at rest\n",
            "output: after it never at rest again\n",
        ];
        for part in parts {
            assert!(texts.iter().any(|text| text.contains(part)), "no {part}");
        }
    }

    #[test]
    fn a_program_that_prints_something_else_is_noticed() {
        for program in [Program::Enforce, Program::Wave, Program::Why] {
            assert!(compare(program, &["true"], 1, |number| number < 1).is_err());
        }
    }
}
