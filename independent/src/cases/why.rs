//! Questions why something was edited.

use super::halves::{some_asked, some_output};
use super::some_numbers;
use crate::call::{call, Call};
use crate::policies;
use crate::random::Random;
use crate::reading::READINGS;
use crate::subject::{filler, lent_length, some_events, some_reading, some_state, Subject};

/// Questions about edits, of policies in which much is edited for what comes
/// later.
pub fn around_reasons(random: &mut Random) -> Vec<Call> {
    let reading = random.pick(&READINGS);
    let subject = Subject::new(policies::trap(random), reading);
    let mut made: Vec<Call> = (0..6).map(|_| why_call(random, &subject)).collect();
    made.extend((0..6).map(|_| why_run_call(random, &subject)));
    made
}

/// Mostly with the marks of prepare, and bytes past them that say nothing.
fn some_marks(random: &mut Random, subject: &Subject) -> Vec<u8> {
    let mut marks = subject.liveness.marks();
    match random.below(20) {
        0..=1 => {
            let place = random.between(0, marks.len() - 1);
            marks[place] = match marks[place] {
                0 => random.pick(&[1, 2, 255]),
                _ => random.pick(&[0, 2, 255]),
            };
        }
        2..=4 => marks.extend(random.bytes(3)),
        5 => marks = vec![1; marks.len()],
        6 => marks.truncate(marks.len() - 1),
        _ => {}
    }
    marks
}

pub fn why_call(random: &mut Random, subject: &Subject) -> Call {
    let state = some_state(random, subject);
    let marks = some_marks(random, subject);
    let asked = some_asked(random, subject, marks);
    let y = some_output(random, subject);
    call!(Why, asked, state, y)
}

/// Short runs mostly, so that they can be stored, and now and then a long one.
pub fn why_run_call(random: &mut Random, subject: &Subject) -> Call {
    let state = some_state(random, subject);
    let mut events = some_events(random, &subject.policy);
    if random.percent(80) {
        events.truncate(random.between(0, 9));
    }
    if !events.is_empty() && random.percent(20) {
        let place = random.between(0, events.len() - 1);
        events[place] = random.byte();
    }
    let length = lent_length(random, events.len()).min(events.len() + 3);
    let odd = random.below(24);
    let entries = |random: &mut Random, slice: u64| match odd == slice {
        true => random.pick(&[subject.states() - 1, subject.states() / 2, 0]),
        false => subject.states() + random.pick(&[0, 0, 1, 7]),
    };
    let [ticks, rests] = [0, 1].map(|slice| {
        let entries = entries(random, slice);
        vec![random.next() as u32; entries]
    });
    let prepared = entries(random, 2);
    let work = [3, 4, 5, 6, 7].map(|slice| {
        let entries = entries(random, slice);
        some_numbers(random, entries)
    });
    Call::WhyRun {
        reading: some_reading(random, subject),
        file: subject.file.clone(),
        marks: some_marks(random, subject),
        state,
        events,
        reasons: (0..length).map(|_| random.next()).collect(),
        ticks,
        rests,
        prepared: filler(random, prepared),
        work,
    }
}
