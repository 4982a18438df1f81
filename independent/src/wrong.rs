//! Stored calls with wrong outcomes, each wrong in one place: a program that
//! compares must notice every one of them.

use crate::call::{Call, Outcome, FUNCTIONS};
use crate::engine::refusal_in;
use crate::random::Random;
use crate::vectors::{
    chosen, chosen_texts, file_of, record, writes_bytes, writes_list, writes_reasons, writes_state,
    writes_totals,
};

/// A call whose record is longer than this is left out.
const LONGEST_RECORD: usize = 700;

/// What is compared after a call.
#[derive(Clone, Copy, Debug, PartialEq, Eq)]
enum Part {
    Answer,
    Bytes,
    State,
    Totals,
    List,
    Reasons,
}

const PARTS: [Part; 6] = [
    Part::Answer,
    Part::Bytes,
    Part::State,
    Part::Totals,
    Part::List,
    Part::Reasons,
];

impl Part {
    fn is_compared(self, kind: usize) -> bool {
        match self {
            Part::Answer => true,
            Part::Bytes => writes_bytes(kind),
            Part::State => writes_state(kind),
            Part::Totals => writes_totals(kind),
            Part::List => writes_list(kind),
            Part::Reasons => writes_reasons(kind),
        }
    }

    /// How many bits, bytes or numbers of an outcome can be wrong.
    fn places(self, outcome: &Outcome) -> usize {
        match self {
            Part::Answer => 64,
            Part::Bytes => outcome.bytes.len(),
            Part::State => outcome.state.len(),
            Part::Totals => outcome.totals.len(),
            Part::List => outcome.struck.len(),
            Part::Reasons => outcome.reasons.len(),
        }
    }

    /// Turns one bit at a place, so that it is never what it was.
    fn alter(self, outcome: &mut Outcome, place: usize, random: &mut Random) {
        match self {
            Part::Answer => outcome.answer ^= 1 << place,
            Part::Bytes => outcome.bytes[place] ^= 1 << random.below(8),
            Part::State => outcome.state[place] ^= 1 << random.below(16),
            Part::Totals => outcome.totals[place] ^= 1 << random.below(32),
            Part::List => outcome.struck[place] ^= 1 << random.below(8),
            Part::Reasons => outcome.reasons[place] ^= 1 << random.below(64),
        }
    }
}

/// Every way in which a record can be wrong: its kind, and a part that is
/// compared in that kind.
fn ways() -> impl Iterator<Item = (usize, Part)> {
    let all = (0..FUNCTIONS.len()).flat_map(|kind| PARTS.map(|part| (kind, part)));
    all.filter(|&(kind, part)| part.is_compared(kind))
}

/// `each` records for every way, calls that are refused and others by turns.
pub fn wrong(each: usize, seed: u64) -> Vec<u8> {
    let mut random = Random::new(seed);
    let (mut calls, mut texts) = (chosen(seed), chosen_texts(seed));
    let mut records = Vec::new();
    for (kind, part) in ways() {
        for turn in 0..each {
            // A refused call leaves alone most of what was lent to it, and a
            // change there must be noticed as well.
            let refused = turn % 2 == 1;
            let fits = |(call, outcome): &(Call, Outcome)| {
                call.kind() == kind
                    && (refusal_in(outcome.answer) != 0) == refused
                    && part.places(outcome) > 0
                    && record(call, outcome).len() <= LONGEST_RECORD
            };
            let found = match FUNCTIONS[kind].starts_with("text_") {
                true => texts.find(fits),
                false => calls.find(fits),
            };
            let (call, mut outcome) = found.expect("random calls have no end");
            let last = part.places(&outcome) - 1;
            let place = match turn {
                0 => 0,
                1 => last,
                _ => random.between(0, last),
            };
            part.alter(&mut outcome, place, &mut random);
            records.push(record(&call, &outcome));
        }
    }
    file_of(records)
}

#[cfg(test)]
mod tests {
    use super::*;
    use crate::engine::Model;
    use crate::vectors::read;

    /// How many bits of each part differ, where nothing has another length.
    fn bits_differing(one: &Outcome, other: &Outcome) -> [u32; PARTS.len()] {
        assert_eq!(one.bytes.len(), other.bytes.len());
        assert_eq!(one.state.len(), other.state.len());
        let bytes = one.bytes.iter().zip(&other.bytes);
        assert_eq!(one.totals.len(), other.totals.len());
        let state = one.state.iter().zip(&other.state);
        let totals = one.totals.iter().zip(&other.totals);
        assert_eq!(one.struck.len(), other.struck.len());
        let struck = one.struck.iter().zip(&other.struck);
        assert_eq!(one.reasons.len(), other.reasons.len());
        let reasons = one.reasons.iter().zip(&other.reasons);
        [
            (one.answer ^ other.answer).count_ones(),
            bytes.map(|(a, b)| (a ^ b).count_ones()).sum(),
            state.map(|(a, b)| (a ^ b).count_ones()).sum(),
            totals.map(|(a, b)| (a ^ b).count_ones()).sum(),
            struck.map(|(a, b)| (a ^ b).count_ones()).sum(),
            reasons.map(|(a, b)| (a ^ b).count_ones()).sum(),
        ]
    }

    #[test]
    fn every_record_is_wrong_in_its_one_place() {
        const EACH: usize = 6;
        for seed in 0..10 {
            let records = read(&wrong(EACH, seed)).expect("just written");
            let of_way: Vec<_> = records.chunks(EACH).collect();
            assert_eq!(of_way.len(), ways().count());
            for ((kind, part), records) in ways().zip(of_way) {
                for (call, expected) in records {
                    assert_eq!(call.kind(), kind);
                    let found = call.make(&mut Model);
                    let only_there = PARTS.map(|other| u32::from(other == part));
                    assert_eq!(bits_differing(&found, expected), only_there, "{call}");
                }
            }
        }
    }

    #[test]
    fn the_ways_are_those_of_the_readme() {
        let named: Vec<String> = ways()
            .map(|(kind, part)| format!("{} {part:?}", FUNCTIONS[kind]))
            .collect();
        let expected = [
            "prepare Answer",
            "prepare Bytes",
            "input Answer",
            "output Answer",
            "output State",
            "run Answer",
            "run Bytes",
            "run State",
            "join Answer",
            "join Bytes",
            "ticks Answer",
            "wave_write Answer",
            "wave_write Bytes",
            "wave_read Answer",
            "wave_read Bytes",
            "index Answer",
            "index State",
            "input_indexed Answer",
            "output_indexed Answer",
            "output_indexed State",
            "bays_new Answer",
            "bays_new State",
            "bay_input Answer",
            "bay_output Answer",
            "bay_output State",
            "meter_new Answer",
            "meter_new State",
            "meter_new Totals",
            "meter_input Answer",
            "meter_output Answer",
            "meter_output State",
            "meter_output Totals",
            "prepare_fast Answer",
            "prepare_fast Bytes",
            "clean Answer",
            "clean Bytes",
            "clean List",
            "why Answer",
            "check Answer",
            "why_run Answer",
            "why_run State",
            "why_run Reasons",
            "text_read Answer",
            "text_read Bytes",
            "text_write Answer",
            "text_write Bytes",
            "text_line_of_rule Answer",
            "text_name_of_signal Answer",
            "text_name_of_clock Answer",
            "text_name_of_location Answer",
        ];
        assert_eq!(named, expected);
    }

    #[test]
    fn the_file_is_short() {
        for seed in 0..10 {
            let file = wrong(4, seed);
            assert!(file.len() <= 55_000, "{}", file.len());
        }
    }
}
