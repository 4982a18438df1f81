//! The page itself: its samples and the lines that it says are refused.

use super::*;
use crate::hex::from_hex;
use crate::policies;
use crate::policy::*;
use crate::random::Random;
use crate::samples::{D, K, N, S, T};

const PAGE: &str = include_str!("../../../docs/POLICY-TEXT.md");

/// The page's texts, without what sets them in.
fn texts() -> Vec<String> {
    let set_in = |line: &&str| line.starts_with("    ") || line.is_empty();
    let lines: Vec<&str> = PAGE.lines().collect();
    let parts = lines.chunk_by(|a, b| set_in(a) == set_in(b));
    let text = |part: &[&str]| {
        let own = part
            .iter()
            .map(|line| line.strip_prefix("    ").unwrap_or(""));
        own.collect::<Vec<_>>().join("\n").trim().to_string() + "\n"
    };
    parts.map(text).collect()
}

fn file_of(text: &[u8]) -> Vec<u8> {
    let read = read_policy(text).expect("a text of the page");
    read.policy.encode()
}

#[test]
fn the_samples_are_on_the_page() {
    for sample in [S, D, T, K, N] {
        let policy = parse::check(&from_hex(sample)).expect("a policy");
        let written = text_of(&policy);
        assert!(texts().contains(&written), "{written}");
        assert_eq!(file_of(written.as_bytes()), from_hex(sample));
    }
}

#[test]
fn the_example_and_its_text_give_one_file() {
    let texts = texts();
    let named = texts.iter().find(|text| text.starts_with("# V opens"));
    let named = file_of(named.expect("the example").as_bytes());
    let policy = parse::check(&named).expect("a policy");
    assert!(texts.contains(&text_of(&policy)));
}

/// What stands between two backticks in a part of the page.
fn quoted(part: &str) -> impl Iterator<Item = &str> {
    part.split('`').skip(1).step_by(2)
}

#[test]
fn the_lines_that_are_refused_are_refused_so() {
    let before = PAGE.lines().find(|line| line.contains("are wrong after"));
    let before: Vec<&str> = quoted(before.expect("the lines before")).take(5).collect();
    let rows = PAGE.lines().filter_map(|line| line.strip_prefix("| "));
    let mut tried = 0;
    for row in rows {
        let cells: Vec<&str> = row.split(" | ").collect();
        let (Ok(number), [_, _, examples]) = (cells[0].parse::<u8>(), &cells[..]) else {
            continue;
        };
        for line in quoted(examples).filter(|line| line.contains(' ')) {
            let place = if line.starts_with("clock") { 2 } else { 5 };
            let mut lines = before.clone();
            lines.insert(place, line);
            let failure = read_policy(lines.join("\n").as_bytes()).expect_err(line);
            assert_eq!(
                (failure.refusal.number(), failure.line),
                (number, place + 1),
                "{line}"
            );
            tried += 1;
        }
    }
    assert!(tried > 15, "{tried}");
}

#[test]
fn every_file_is_given_back_by_its_text() {
    let mut random = Random::new(33);
    for _ in 0..1_000 {
        let policy = policies::any(&mut random);
        let text = text_of(&policy);
        assert_eq!(file_of(text.as_bytes()), policy.encode(), "{text}");
        assert!(text.len() <= 39_420);
    }
}

/// The text of as much of everything as there can be: only the ceilings, which
/// 65,536 states bound, could be longer.
#[test]
fn no_text_is_longer_than_the_page_says() {
    let ceilings = [10, 10, 1, 1];
    let bounds = ceilings.map(|ceiling| Bound {
        low: ceiling - 1,
        high: ceiling - 1,
    });
    let all = Condition { care: 15, value: 0 };
    let rule = |number: usize| Rule {
        source: (number / 4) as u8,
        input: all,
        output: all,
        reset: 15,
        target: VIOLATION,
        bounds,
    };
    let policy = Policy {
        inputs: b"ABCD".to_vec(),
        outputs: b"EFGH".to_vec(),
        ceilings: ceilings.to_vec(),
        must_leave: vec![true; MAX_LOCATIONS],
        rules: (0..MAX_RULES).map(rule).collect(),
    };
    assert_eq!(parse::check(&policy.encode()), Ok(policy.clone()));
    let length = text_of(&policy).len();
    assert!((25_000..=39_420).contains(&length), "{length}");
}
