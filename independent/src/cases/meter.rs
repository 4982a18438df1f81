//! Calls of a station with a meter.

use super::halves::Half;
use super::some_numbers;
use crate::call::{call, Call};
use crate::damage;
use crate::meter::{self, STATION_LENGTH, TOTALS};
use crate::policies::{self, Size};
use crate::policy::Policy;
use crate::random::Random;
use crate::reading::READINGS;
use crate::subject::Subject;

/// A policy that has the signals of a meter, or all but one of them.
pub fn around_meter(random: &mut Random) -> Vec<Call> {
    let reading = random.pick(&READINGS);
    let subject = loop {
        let size = random.pick(&[Size::Tiny, Size::Tiny, Size::Small]);
        let policy = policies::of_size(random, size);
        if let Some(policy) = meter::metered(random, policy) {
            let subject = Subject::new(without_a_signal(random, policy), reading);
            if subject.liveness.live[0] || random.percent(25) {
                break subject;
            }
        }
    };
    let mut made = vec![meter_new_call(random)];
    for _ in 0..3 {
        made.push(meter_call(random, &subject));
        let file = damage::damaged(random, &subject.policy);
        made.push(meter_call(random, &subject).with_file(file));
    }
    made
}

/// Now and then another letter in the place of P or D, or the two exchanged.
fn without_a_signal(random: &mut Random, mut policy: Policy) -> Policy {
    let (from, to) = match random.below(16) {
        0 => (b'P', b'p'),
        1 => (b'D', b'd'),
        2 => (b'P', b'D'),
        _ => return policy,
    };
    let free =
        (b'A'..=b'Z').find(|tag| !policy.inputs.contains(tag) && !policy.outputs.contains(tag));
    for tag in policy.inputs.iter_mut().chain(&mut policy.outputs) {
        *tag = match *tag {
            old if old == from && to.is_ascii_lowercase() => free.expect("few letters are used"),
            old if old == from => to,
            old if old == to => from,
            old => old,
        };
    }
    policy
}

fn meter_new_call(random: &mut Random) -> Call {
    let length = random.pick(&[STATION_LENGTH, STATION_LENGTH, 7, 8, 8, 0, 5]);
    let totals = random.pick(&[TOTALS, TOTALS, 3, 4, 4, 0, 1]);
    Call::MeterNew {
        station: some_numbers(random, length),
        totals: some_totals(random, totals),
        register: random.next() as u16,
    }
}

fn some_totals(random: &mut Random, length: usize) -> Vec<u32> {
    let mut one = || match random.below(4) {
        0 => 0,
        1 => u32::MAX - random.below(3) as u32,
        2 => u32::MAX - random.below(70_000) as u32,
        _ => random.next() as u32,
    };
    (0..length).map(|_| one()).collect()
}

fn meter_call(random: &mut Random, subject: &Subject) -> Call {
    let Half {
        mut asked,
        state: mut station,
        y,
    } = Half::some(random, subject, 40);
    let last = random.next() as u16;
    let register = match random.below(4) {
        0 => last,
        1 => last.wrapping_add(random.between(1, 20) as u16),
        2 => last.wrapping_sub(1),
        _ => random.next() as u16,
    };
    let totals = match random.percent(60) {
        true => TOTALS,
        false => random.pick(&[3, 4, 3, 4, 0, 1]),
    };
    let totals = some_totals(random, totals);
    let tags = (&subject.policy.inputs, &subject.policy.outputs);
    let metered = tags.0.contains(&b'P') && tags.1.contains(&b'D');
    // Where 26 is due, marks that are too short as well.
    if !metered && random.percent(40) {
        asked.marks.truncate(subject.states() - 1);
    }
    station.truncate(7);
    station.push(last);
    // Numbers past the station: they stay, whatever they are.
    if random.percent(30) {
        let past = random.between(1, 5) as usize;
        station.extend(some_numbers(random, past));
    }
    match y {
        None => call!(MeterInput, asked, station, register),
        Some(y) => call!(MeterOutput, asked, station, totals, register, y),
    }
}
