//! Writes a file of stored cases.

use super::parts::{writes_bytes, writes_list, writes_reasons, writes_state, writes_totals};
use super::MAGIC;
use crate::call::{Call, Given, Outcome};

/// The records as a file.
pub fn file_of(records: Vec<Vec<u8>>) -> Vec<u8> {
    let mut file = MAGIC.to_vec();
    put_number(&mut file, records.len());
    file.extend(records.into_iter().flatten());
    file
}

/// One record: the kind, the length of the body, the body.
pub fn record(call: &Call, outcome: &Outcome) -> Vec<u8> {
    let body = body(call, outcome);
    let mut record = vec![call.kind() as u8 + 1];
    put_number(&mut record, body.len());
    record.extend(body);
    record
}

fn body(call: &Call, outcome: &Outcome) -> Vec<u8> {
    let mut body = Vec::new();
    for (_, given) in call.given() {
        match given {
            Given::Byte(byte) => body.push(*byte),
            Given::Pair(pair) => body.extend(pair.to_be_bytes()),
            Given::Word(word) => put_number(&mut body, *word as usize),
            Given::Policy(bytes) | Given::Bytes(bytes) => put_string(&mut body, bytes),
            Given::Numbers(numbers) => put_numbers(&mut body, numbers),
            Given::Totals(totals) | Given::Table(totals) => put_totals(&mut body, totals),
            Given::Longs(longs) => put_longs(&mut body, longs),
            Given::Work(work) => work.iter().for_each(|slice| put_numbers(&mut body, slice)),
        }
    }
    body.extend(outcome.answer.to_be_bytes());
    if writes_bytes(call.kind()) {
        put_string(&mut body, &outcome.bytes);
    }
    if writes_state(call.kind()) {
        put_numbers(&mut body, &outcome.state);
    }
    if writes_totals(call.kind()) {
        put_totals(&mut body, &outcome.totals);
    }
    if writes_list(call.kind()) {
        put_string(&mut body, &outcome.struck);
    }
    if writes_reasons(call.kind()) {
        put_longs(&mut body, &outcome.reasons);
    }
    body
}

fn put_number(out: &mut Vec<u8>, number: usize) {
    out.extend((number as u32).to_be_bytes());
}

fn put_numbers(out: &mut Vec<u8>, numbers: &[u16]) {
    out.push(numbers.len() as u8);
    for number in numbers {
        out.extend(number.to_be_bytes());
    }
}

fn put_totals(out: &mut Vec<u8>, totals: &[u32]) {
    out.push(totals.len() as u8);
    for &total in totals {
        put_number(out, total as usize);
    }
}

fn put_longs(out: &mut Vec<u8>, longs: &[u64]) {
    out.push(longs.len() as u8);
    for long in longs {
        out.extend(long.to_be_bytes());
    }
}

/// The most that one piece of a packed string stands for.
const LONGEST_PIECE: usize = 128;

/// The length, then pieces: a byte below 128 is followed by so many bytes and
/// one more; any other, less 127, is how often the next byte is repeated.
pub fn put_string(out: &mut Vec<u8>, string: &[u8]) {
    put_number(out, string.len());
    let mut plain = Vec::new();
    for same in string.chunk_by(|a, b| a == b) {
        if same.len() < 3 {
            plain.extend(same);
            continue;
        }
        put_plain(out, &mut plain);
        for piece in same.chunks(LONGEST_PIECE) {
            out.extend([127 + piece.len() as u8, piece[0]]);
        }
    }
    put_plain(out, &mut plain);
}

fn put_plain(out: &mut Vec<u8>, plain: &mut Vec<u8>) {
    for piece in plain.chunks(LONGEST_PIECE) {
        out.push(piece.len() as u8 - 1);
        out.extend(piece);
    }
    plain.clear();
}

#[cfg(test)]
mod tests {
    use super::*;

    #[test]
    fn pieces_are_as_the_readme_says() {
        let mut packed = Vec::new();
        put_string(&mut packed, &[7, 8, 8, 9, 9, 9, 9, 1]);
        assert_eq!(packed, [0, 0, 0, 8, 2, 7, 8, 8, 131, 9, 0, 1]);
    }
}
