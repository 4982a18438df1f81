//! Random calls. A group is all the calls made around one random policy, or
//! a pair to be joined, some times to be converted, or a stream to be written
//! as a wave and read back.

mod bays;
mod clean;
mod engines;
mod halves;
mod indexes;
mod joins;
mod meter;
mod texts;
mod times;
mod waves;
mod why;
mod wrong_files;

use crate::call::Call;
use crate::policies;
use crate::random::Random;
use crate::reading::READINGS;
use crate::subject::Subject;
use bays::{bay_call, bays_new_call};
use clean::clean_call;
use engines::{around_engines, check_call, prepare_calls};
use halves::{around_edits, input_call, output_call, run_call};
use indexes::{index_call, indexed_call};
use joins::around_join;
use meter::around_meter;
use texts::around_text;
use times::around_ticks;
use waves::around_wave;
use why::{around_reasons, why_call, why_run_call};
use wrong_files::{around_damage, around_prefixes};

/// Group `number` of `seed`; always the same.
pub fn group(seed: u64, number: u64) -> Vec<Call> {
    let mut random = Random::for_group(seed, number);
    match random.below(121) {
        0..=55 => around_policy(&mut random),
        56..=57 => around_edits(&mut random),
        58..=59 => around_reasons(&mut random),
        60..=77 => around_damage(&mut random),
        78 => around_prefixes(&mut random),
        79..=94 => around_join(&mut random),
        95..=99 => around_ticks(&mut random),
        100..=111 => around_wave(&mut random),
        112..=117 => around_meter(&mut random),
        _ => around_engines(&mut random),
    }
}

/// Texts `number` of `seed`, which are drawn apart from the groups; always the
/// same.
pub fn texts(seed: u64, number: u64) -> Vec<Call> {
    let mut random = Random::for_group(!seed, number);
    around_text(&mut random)
}

fn around_policy(random: &mut Random) -> Vec<Call> {
    let reading = random.pick(&READINGS);
    let mut subject = Subject::new(policies::any(random), reading);
    // Of a policy without a live start there is less to ask.
    if !subject.liveness.live[0] && random.percent(75) {
        subject = Subject::new(policies::any(random), reading);
    }
    let calls = match subject.states() {
        0..=6_000 => 4,
        // Each call copies its marks, so large tables get few.
        _ => 1,
    };
    let mut made = prepare_calls(random, &subject);
    made.push(check_call(&subject));
    for _ in 0..calls {
        made.push(input_call(random, &subject));
        made.push(output_call(random, &subject));
        made.push(run_call(random, &subject));
    }
    made.push(index_call(random, &subject));
    for _ in 0..calls.min(2) {
        made.push(indexed_call(random, &subject));
        made.push(bay_call(random, &subject));
        made.push(why_call(random, &subject));
    }
    made.push(bays_new_call(random));
    made.push(clean_call(random, &subject));
    for _ in 0..calls.min(2) {
        made.push(why_run_call(random, &subject));
    }
    made
}

/// What a slice of numbers holds before a call.
fn some_numbers(random: &mut Random, length: usize) -> Vec<u16> {
    match random.percent(50) {
        true => vec![0xEEEE; length],
        false => (0..length).map(|_| random.next() as u16).collect(),
    }
}

/// Every refusal that a function can give, and 0 for none.
#[cfg(test)]
pub fn refusals_of(function: &str) -> Vec<usize> {
    let own: &[usize] = match function {
        "ticks" => return vec![0, 18, 19],
        "check" => &[],
        "why_run" => &[10, 14, 15, 16, 20, 22, 23],
        "prepare" => &[10, 11, 22],
        "prepare_fast" => &[10, 11, 22, 23],
        "clean" => &[14, 22],
        "why" => &[10, 15, 16, 20, 22],
        "input" | "output" => &[10, 15, 16, 17, 22],
        "run" => &[10, 14, 15, 16, 17, 22],
        "join" => &[12, 13, 14],
        "wave_write" => &[14, 15, 29],
        "wave_read" => &[14, 21],
        "index" => &[14],
        "input_indexed" | "output_indexed" => &[10, 15, 16, 17, 22, 28],
        "text_read" => return vec![0, 2, 4, 7, 9, 14, 30, 31, 32, 33, 34],
        "text_write" => &[14],
        name if name.starts_with("text_") => {
            return vec![0, 2, 4, 7, 9, 30, 31, 32, 33, 34, 35];
        }
        "bays_new" => return vec![0, 25],
        "meter_new" => return vec![0, 14],
        "meter_input" => &[10, 15, 16, 17, 22, 26],
        "meter_output" => &[10, 14, 15, 16, 17, 22, 26, 27],
        "bay_input" | "bay_output" => &[10, 15, 16, 17, 22, 24],
        _ => panic!("{function} is none"),
    };
    (0..=9).chain(own.iter().copied()).collect()
}

#[cfg(test)]
mod tests {
    use super::*;
    use crate::call::FUNCTIONS;
    use crate::engine::{refusal_in, Model};
    use crate::refusal::LAST_REFUSAL;

    #[test]
    fn a_group_is_always_the_same() {
        for number in 0..50 {
            assert_eq!(group(5, number), group(5, number));
        }
        assert_ne!(group(5, 0), group(6, 0));
    }

    /// Every refusal each function can give does occur, and so does success.
    #[test]
    fn every_function_meets_every_refusal_it_has() {
        let mut seen = [[0; LAST_REFUSAL + 1]; FUNCTIONS.len()];
        for number in 0..6_000 {
            for call in [group(9, number), texts(9, number)].concat() {
                let refusal = refusal_in(call.make(&mut Model).answer);
                seen[call.kind()][usize::from(refusal)] += 1;
            }
        }
        for (kind, function) in FUNCTIONS.iter().enumerate() {
            let possible = refusals_of(function);
            for (number, &count) in seen[kind].iter().enumerate() {
                assert_eq!(
                    count > 0,
                    possible.contains(&number),
                    "{function} {number}: {count}"
                );
            }
        }
    }
}
