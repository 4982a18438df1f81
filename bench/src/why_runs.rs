//! Reasons for a run of events, beside the run alone and beside a call of `why`
//! for each edited event: what a record of many ticks costs.

use crate::engine::{refusal_in, Engine, Plain, State, START};
use crate::falling::row_of;
use crate::policies;
use crate::ready::Ready;

/// As many events as one call takes here.
const EVENTS: usize = 16_384;
/// One event in so many is edited.
const APART: usize = 10;

pub fn heading() -> String {
    row_of(
        "policy",
        &[
            "states",
            "edited",
            "run ns",
            "why_run ns",
            "why ms",
            "day s",
        ],
    )
}

/// An error says that a call is refused or answers otherwise.
pub fn row() -> Result<String, String> {
    let ready = Ready::new(1, &policies::thousand());
    let (events, edited) = stream(&ready);
    let states = (Plain.prepare(1, &ready.file, &mut ready.marks.clone()) >> 16) & 0xFF_FFFF;
    let [run, explained, why, day] = times(&ready, &events, edited)?;
    Ok(row_of(
        "1,024 states, every tenth edited",
        &[
            &states.to_string(),
            &edited.to_string(),
            &run,
            &explained,
            &why,
            &day,
        ],
    ))
}

/// Events from the start on, of which every tenth is edited, as far as the state
/// there edits any; and how many are.
fn stream(ready: &Ready) -> (Vec<u8>, usize) {
    let mut state = START;
    let mut edited = 0;
    let mut events = Vec::new();
    for place in 0..EVENTS {
        let wanted = place % APART == APART - 1;
        let all = (0..16).map(|event: u8| event.wrapping_add(place as u8) % 16);
        let mut all = all.map(|event| event & 3 | (event >> 2) << 4);
        let first = all.clone().next().expect("there are sixteen");
        let event = all
            .find(|&event| is_edited(ready, state, event) == wanted)
            .unwrap_or(first);
        edited += usize::from(is_edited(ready, state, event));
        events.push(event);
        Plain.run(ready.basis(), &mut state, &[event], &mut [0]);
    }
    (events, edited)
}

fn is_edited(ready: &Ready, mut state: State, event: u8) -> bool {
    let mut released = [0];
    let answer = Plain.run(ready.basis(), &mut state, &[event], &mut released);
    assert_eq!(refusal_in(answer), 0, "a measured stream is refused");
    released[0] != event
}

/// Without the library there is nothing to time.
#[cfg(not(feature = "library"))]
fn times(_: &Ready, _: &[u8], _: usize) -> Result<[String; 4], String> {
    Ok(["-".into(), "-".into(), "-".into(), "-".into()])
}

/// The best of five each: nanoseconds for an event of the run and of the run that
/// is explained, milliseconds for a call of `why`, and seconds for a day of ticks in
/// pieces of as many events.
#[cfg(feature = "library")]
fn times(ready: &Ready, events: &[u8], edited: usize) -> Result<[String; 4], String> {
    use crate::clock;
    use crate::engine::found_in;
    use crate::file::MOST_STATES;
    use crate::library::{why, why_run, Library, Room};

    /// Of 100 ms.
    const TICKS_OF_A_DAY: usize = 864_000;
    let mut room = Room::new(MOST_STATES);
    let mut reasons = vec![0; EVENTS];
    let mut released = vec![0; EVENTS];
    let mut best = [f64::MAX; 3];
    for _ in 0..5 {
        let (mut state, mut other) = (START, START);
        let begun = clock::now();
        let ran = Library.run(ready.basis(), &mut state, events, &mut released);
        let between = clock::now();
        let told = why_run(ready.basis(), &mut other, events, &mut reasons, &mut room);
        let after = clock::now();
        let (reading, file, marks) = ready.basis().parts();
        let one = why(reading, file, marks, &START, 0, 0);
        let ended = clock::now();
        let found = reasons.iter().filter(|&&reason| reason != 0).count();
        let right = ran == told && found_in(told) == EVENTS && state == other && found == edited;
        if !right || refusal_in(one) != 0 {
            return Err("refused, or answered otherwise".to_string());
        }
        for (best, time) in best
            .iter_mut()
            .zip([between - begun, after - between, ended - after])
        {
            *best = best.min(time.as_secs_f64());
        }
    }
    let [run, explained, why] = best;
    let events = events.len() as f64;
    let day = explained * TICKS_OF_A_DAY.div_ceil(EVENTS) as f64;
    Ok([
        format!("{:.0}", run * 1e9 / events),
        format!("{:.0}", explained * 1e9 / events),
        format!("{:.2}", why * 1e3),
        format!("{day:.2}"),
    ])
}

#[cfg(test)]
mod tests {
    use super::*;

    /// Every tenth is, to within a few.
    #[test]
    fn every_tenth_event_is_edited() {
        let ready = Ready::new(1, &policies::thousand());
        let (events, edited) = stream(&ready);
        assert_eq!(events.len(), EVENTS);
        assert!((EVENTS / 11..=EVENTS / 9).contains(&edited), "{edited}");
    }
}
