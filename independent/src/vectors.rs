//! Calls and their outcomes as a file that a program without a heap can read
//! from beginning to end. The README describes the format.

mod parts;
mod reader;
mod writer;

use crate::call::{Call, Given, Outcome, FUNCTIONS};
use crate::cases;
use crate::engine::{refusal_in, Engine, Model};
use crate::refusal::LAST_REFUSAL;
use crate::written;
pub use parts::{writes_bytes, writes_list, writes_reasons, writes_state, writes_totals};
pub use reader::read;
pub use writer::{file_of, record};

pub const MAGIC: [u8; 4] = *b"GPV2";

/// A random call whose record is longer than this is left out.
const LONGEST_RECORD: usize = 700;
/// The same of a call about a text.
const LONGEST_TEXT_RECORD: usize = 300;
/// So many random calls about texts are stored.
const TEXTS: usize = 5;
/// No record is added once the file has this length.
const LONGEST_FILE: usize = 295_000;
/// The longest that a policy, unpacked, may be, and the slice for a join.
const LONGEST_POLICY: usize = 8_192;
/// The longest that any other string, unpacked, may be.
const LONGEST_STRING: usize = 65_600;
/// The most numbers of 16 bits that stand together, and the longest table.
const LONGEST_NUMBERS: usize = 136;
/// The most of a state or a station.
const LONGEST_STATION: usize = 8;
/// The most totals.
const LONGEST_TOTALS: usize = 4;
/// The most reasons of a run.
const LONGEST_REASONS: usize = 40;

/// Those written by hand, then `count` random ones and some about texts, as far
/// as they fit.
pub fn vectors(count: usize, seed: u64) -> Vec<u8> {
    let mut records: Vec<Vec<u8>> = written::stored()
        .iter()
        .map(|written| record(&written.call, &written.expected))
        .collect();
    let mut length: usize = MAGIC.len() + 4 + records.iter().map(Vec::len).sum::<usize>();
    let calls = chosen(seed)
        .take(count)
        .chain(chosen_texts(seed).take(TEXTS));
    for (call, outcome) in calls {
        let record = record(&call, &outcome);
        length += record.len();
        if length > LONGEST_FILE {
            break;
        }
        records.push(record);
    }
    file_of(records)
}

/// Random calls without end, short ones only, and no answer much more often
/// than others.
pub fn chosen(seed: u64) -> impl Iterator<Item = (Call, Outcome)> {
    let calls = (0..).flat_map(move |number| cases::group(seed, number));
    chosen_of(calls, LONGEST_RECORD)
}

/// The same of texts.
pub fn chosen_texts(seed: u64) -> impl Iterator<Item = (Call, Outcome)> {
    let calls = (0..).flat_map(move |number| cases::texts(seed, number));
    chosen_of(calls, LONGEST_TEXT_RECORD)
}

fn chosen_of(
    calls: impl Iterator<Item = Call>,
    longest: usize,
) -> impl Iterator<Item = (Call, Outcome)> {
    let mut taken = 0;
    let mut answers = [[0; LAST_REFUSAL + 1]; FUNCTIONS.len()];
    calls.filter_map(move |call| {
        let outcome = call.make(&mut Model);
        let refusal = usize::from(refusal_in(outcome.answer));
        let seen = &mut answers[call.kind()][refusal];
        // Answers that refuse nothing say most, and may be more of the whole.
        let share = if refusal == 0 { 8 } else { 50 };
        if *seen > 2 + taken / share {
            return None;
        }
        let short = record(&call, &outcome).len() <= longest && strings_fit(&call);
        if !short {
            return None;
        }
        *seen += 1;
        taken += 1;
        Some((call, outcome))
    })
}

/// Whether a reader with the buffers the README names can hold the call.
fn strings_fit(call: &Call) -> bool {
    call.given().iter().all(|(name, given)| match given {
        Given::Policy(bytes) => bytes.len() <= LONGEST_POLICY,
        Given::Bytes(bytes) => bytes.len() <= LONGEST_STRING,
        Given::Numbers(numbers) => match name.split(' ').next() {
            Some("state" | "station") => numbers.len() <= LONGEST_STATION,
            _ => numbers.len() <= LONGEST_NUMBERS,
        },
        Given::Work(work) => work.iter().all(|slice| slice.len() <= LONGEST_NUMBERS),
        Given::Totals(totals) => totals.len() <= LONGEST_TOTALS,
        Given::Longs(longs) => longs.len() <= LONGEST_REASONS,
        Given::Table(table) => table.len() <= LONGEST_NUMBERS,
        Given::Byte(_) | Given::Pair(_) | Given::Word(_) => true,
    })
}

/// Puts every stored call to an engine; the error is the first that comes
/// out otherwise.
pub fn replay(file: &[u8], engine: &mut dyn Engine) -> Result<usize, String> {
    let records = read(file)?;
    for (number, (call, expected)) in records.iter().enumerate() {
        let found = call.make(engine);
        if found != *expected {
            return Err(format!(
                "record {number}\n{call}stored:\n{expected}found:\n{found}"
            ));
        }
    }
    Ok(records.len())
}

#[cfg(test)]
mod tests {
    use super::*;

    #[test]
    fn stored_calls_are_read_and_hold() {
        let file = vectors(500, 6);
        assert!(file.len() < 300_000, "{}", file.len());
        let written = written::stored().len();
        assert_eq!(replay(&file, &mut Model), Ok(written + 500 + TEXTS));
        let records = read(&file).expect("just written");
        assert!(records.iter().all(|(call, _)| strings_fit(call)));
    }

    /// With the count and the seed of the file that is stored.
    #[test]
    fn every_refusal_of_every_function_is_stored() {
        let mut seen = [[false; LAST_REFUSAL + 1]; FUNCTIONS.len()];
        for (call, outcome) in read(&vectors(600, 5)).expect("just written") {
            seen[call.kind()][usize::from(refusal_in(outcome.answer))] = true;
        }
        for (function, seen) in FUNCTIONS.iter().zip(seen) {
            // Where a text is asked for a place, it is read as the reader reads it.
            let place = function.starts_with("text_line") || function.starts_with("text_name");
            let possible = match place {
                true => vec![0, 30, 35],
                false => cases::refusals_of(function),
            };
            for number in possible {
                assert!(seen[number], "{function} {number}");
            }
        }
    }

    #[test]
    fn a_changed_answer_is_noticed() {
        let mut file = vectors(0, 1);
        let last = file.len() - 1;
        // The last record is of a wave that is read, and the last byte one of
        // the events that it leaves.
        file[last] ^= 1;
        assert!(replay(&file, &mut Model).is_err());
    }

    #[test]
    fn a_file_cut_short_is_not_read() {
        let file = vectors(20, 1);
        assert!(read(&file[..file.len() - 1]).is_err());
        assert!(read(&file[..6]).is_err());
        let more = [file, vec![0]].concat();
        assert!(read(&more).is_err());
    }
}
