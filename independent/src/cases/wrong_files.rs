//! Calls with damaged files.

use super::bays::bay_call;
use super::clean::clean_call;
use super::engines::prepare_fast_call;
use super::halves::{input_call, output_call, run_call};
use super::indexes::{index_call, indexed_call};
use super::waves::Wave;
use super::why::{why_call, why_run_call};
use crate::call::Call;
use crate::damage;
use crate::policies::{self, Size};
use crate::random::Random;
use crate::reading::READINGS;
use crate::subject::{some_reading, Subject};

/// A damaged file given to every function that takes one.
pub fn around_damage(random: &mut Random) -> Vec<Call> {
    let size = random.pick(&[Size::Tiny, Size::Small]);
    let policy = policies::of_size(random, size);
    let subject = Subject::new(policy, random.pick(&READINGS));
    let mut made = Vec::new();
    for _ in 0..3 {
        let file = damage::damaged(random, &subject.policy);
        let length = random.pick(&[0, 1, subject.states(), 700]);
        let marks = random.bytes(length);
        made.push(Call::Prepare {
            reading: some_reading(random, &subject),
            file: file.clone(),
            marks,
        });
        made.push(input_call(random, &subject).with_file(file.clone()));
        made.push(output_call(random, &subject).with_file(file.clone()));
        made.push(run_call(random, &subject).with_file(file.clone()));
        let wave = Wave::new(random, subject.policy.clone());
        made.push(wave.write_call(random).with_file(file.clone()));
        made.push(wave.read_call(random).with_file(file.clone()));
        made.push(index_call(random, &subject).with_file(file.clone()));
        made.push(indexed_call(random, &subject).with_file(file.clone()));
        made.push(bay_call(random, &subject).with_file(file.clone()));
        made.push(prepare_fast_call(random, &subject).with_file(file.clone()));
        made.push(clean_call(random, &subject).with_file(file.clone()));
        made.push(why_call(random, &subject).with_file(file.clone()));
        made.push(Call::Check { file });
    }
    for _ in 0..3 {
        let file = damage::damaged(random, &subject.policy);
        made.push(why_run_call(random, &subject).with_file(file));
    }
    made
}

/// A short file cut off at every place.
pub fn around_prefixes(random: &mut Random) -> Vec<Call> {
    let file = policies::of_size(random, Size::Tiny).encode();
    let marks = random.bytes(40);
    let reading = random.pick(&READINGS).number();
    damage::prefixes(&file[..file.len().min(150)])
        .into_iter()
        .flat_map(|file| {
            let prepare = Call::Prepare {
                reading,
                file: file.clone(),
                marks: marks.clone(),
            };
            [prepare, Call::Check { file }]
        })
        .collect()
}
