//! The samples and the marked cases of the policy paper.

#[path = "../../../independent/src/samples.rs"]
mod samples;

use super::state::STATE_LENGTH;
use super::*;
use crate::basis::Basis;
use samples::{D, K, N, S, T};

fn bytes(hex: &str) -> Vec<u8> {
    let byte = |word: &str| u8::from_str_radix(word, 16).expect("two hex digits");
    hex.split_whitespace().map(byte).collect()
}

/// Verdict, states and live states.
fn prepared(reading: u8, policy: &str) -> Result<(u8, usize, usize), Refusal> {
    let prepared = prepare(reading, &bytes(policy), &mut [9; 16])?;
    Ok((prepared.verdict, prepared.states, prepared.live))
}

/// What a run from the start releases.
fn released(reading: u8, policy: &str, events: &[u8]) -> Result<Vec<u8>, Refusal> {
    let file = bytes(policy);
    let mut marks = [9; 16];
    prepare(reading, &file, &mut marks)?;
    let mut released = vec![9; events.len()];
    let mut state = [0; STATE_LENGTH];
    let basis = Basis::new(reading, &file, &marks);
    let end = run(basis, &mut state, events, &mut released)?;
    match end.refusal {
        Some(refusal) => Err(refusal),
        None => Ok(released),
    }
}

#[test]
fn tables_of_the_samples() {
    assert_eq!(prepared(1, S), Ok((0, 1, 1)));
    assert_eq!(prepared(1, D), Ok((0, 8, 8)));
    assert_eq!(prepared(1, T), Ok((1, 2, 1)));
    assert_eq!(prepared(1, N), Err(Refusal::StartNotLive));
    let beside = S.replacen("00 01 00 00 03", "00 02 00 00 00 03", 1);
    assert_eq!(prepared(1, &beside), Ok((0, 2, 1)));
}

/// A begins what B must be able to finish, and what can be finished only
/// where the fourth rule stands.
fn transfer(rules: &str) -> String {
    format!(
        "01 41 01 42 00 02 00 01 {rules}
        00 01 01 00 00 00 01  00 00 00 00 00 00 00  01 00 00 01 00 00 01"
    )
}

#[test]
fn what_is_begun_must_be_able_to_finish() {
    let finished = format!("{}  01 00 00 00 00 00 00", transfer("00 04"));
    assert_eq!(prepared(1, &finished), Ok((0, 2, 2)));
    assert_eq!(released(1, &finished, &[0x01, 0x10]), Ok(vec![0x01, 0x10]));
    let unfinished = transfer("00 03");
    assert_eq!(prepared(1, &unfinished), Ok((1, 2, 1)));
    assert_eq!(
        released(1, &unfinished, &[0x01, 0x10]),
        Ok(vec![0x00, 0x10])
    );
    let byte_two = transfer("00 03").replacen("00 01 00 03", "00 02 00 03", 1);
    assert_eq!(prepared(1, &byte_two), Err(Refusal::BadLocationByte));
}

#[test]
fn refusal_11_leaves_the_marks() {
    let mut marks = [9; 2];
    let refused = prepare(1, &bytes(N), &mut marks);
    assert_eq!((refused, marks), (Err(Refusal::StartNotLive), [0, 9]));
}

/// A policy, the events and what is released of them.
fn release_so(reading: u8, cases: &[(&str, &str, &str)]) {
    for (policy, events, expected) in cases {
        let released = released(reading, policy, &bytes(events));
        assert_eq!(released, Ok(bytes(expected)));
    }
}

#[test]
fn streams_of_the_samples() {
    let cases = [
        (S, "03", "01"),
        (S, "12", "02"),
        (S, "13", "11"),
        (S, "11", "11"),
        (D, "01 00 00 00 00", "01 00 00 00 10"),
        (T, "01 11", "00 10"),
        (K, "00 00 10", "00 00 10"),
        (K, "00 00 00 10", "00 00 00 00"),
        (S, "", ""),
    ];
    release_so(1, &cases);
}

#[test]
fn reading_2_counts_the_tick_first() {
    let cases = [
        (D, "01 00 00 00 00", "01 00 00 10 00"),
        (K, "00 10", "00 10"),
        (K, "00 00 10", "00 00 00"),
        (S, "03 12", "01 02"),
    ];
    release_so(2, &cases);
}

#[test]
fn there_is_no_third_reading() {
    for reading in [0, 3, 255] {
        assert_eq!(prepared(reading, ""), Err(Refusal::UnknownReading));
        assert_eq!(prepared(reading, D), Err(Refusal::UnknownReading));
    }
}

#[test]
fn ties_keep_the_first_signals() {
    let either = "02 41 42 00 00 01 00 00 02  00 03 01 00 00 00 00  00 03 02 00 00 00 00";
    assert_eq!(released(1, either, &[0, 3, 1]), Ok(vec![2, 1, 1]));
}

#[test]
fn a_clock_does_not_wrap() {
    let mut events = vec![0; 65_537];
    events.push(0x10);
    for reading in [1, 2] {
        assert_eq!(released(reading, K, &events), Ok(vec![0; events.len()]));
    }
}

#[test]
fn an_event_beyond_the_signals_is_refused() {
    assert_eq!(released(1, S, &[0x04]), Err(Refusal::BeyondSignals));
}
