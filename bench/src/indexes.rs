//! The halves with an index against those without: what it costs to show that an
//! index is the file's, beside what it saves.

use crate::falling::row_of;
use crate::policies;
use crate::ready::Ready;

/// How many locations share 256 rules.
const LOCATIONS: [u8; 3] = [1, 8, 64];

pub fn heading() -> String {
    row_of("policy", &["half", "without ns", "with ns", "ratio"])
}

pub fn rows() -> Result<Vec<String>, String> {
    let mut rows = Vec::new();
    for locations in LOCATIONS {
        let ready = Ready::new(1, &policies::shared_out(locations));
        rows.extend(halves(locations, &ready)?);
    }
    Ok(rows)
}

#[cfg(not(feature = "library"))]
fn halves(_: u8, _: &Ready) -> Result<Vec<String>, String> {
    Err("build with `--features library`".into())
}

#[cfg(feature = "library")]
fn halves(locations: u8, ready: &Ready) -> Result<Vec<String>, String> {
    use crate::engine::Engine;
    use crate::library::{self, Library};

    /// A file has that many numbers in its index.
    const INDEX: usize = 128;
    const MOMENTS: usize = 1_024;

    let mut index = [0; INDEX];
    if library::index(&ready.file, &mut index) != 0 {
        return Err(format!("{locations} locations: no index"));
    }
    let events: Vec<u8> = (0..MOMENTS).map(|tick| (tick * 37) as u8).collect();
    let stream = ready.corrected(&events);
    let states = ready.states_along(&stream);
    let basis = ready.basis();
    let input = best_of(&states, &stream, |indexed, state, event| match indexed {
        false => Library.input(basis, state, event & 15),
        true => library::input_indexed(basis, &index, state, event & 15),
    })?;
    let output = best_of(&states, &stream, |indexed, state, event| match indexed {
        false => Library.output(basis, state, event & 15, event >> 4),
        true => library::output_indexed(basis, &index, state, event & 15, event >> 4),
    })?;
    let name = match locations {
        1 => "1 location, 256 rules".to_string(),
        _ => format!("{locations} locations, 256 rules"),
    };
    let row = |half, [without, with]: [f64; 2]| {
        let numbers = [without, with, with / without].map(|number| format!("{number:.2}"));
        row_of(&name, &[half, &numbers[0], &numbers[1], &numbers[2]])
    };
    Ok(vec![row("input", input), row("output", output)])
}

/// The best of many rounds without an index and with it, in turns: nanoseconds a
/// call. Both must answer alike and leave the same state.
#[cfg(feature = "library")]
fn best_of(
    states: &[crate::engine::State],
    stream: &[u8],
    call: impl Fn(bool, &mut [u16], u8) -> u64,
) -> Result<[f64; 2], String> {
    use crate::clock;

    const ROUNDS: usize = 41;
    let mut best = [f64::MAX; 2];
    let mut answers = [vec![], vec![]];
    for _ in 0..ROUNDS {
        for indexed in [false, true] {
            let side = usize::from(indexed);
            answers[side].clear();
            let begun = clock::now();
            for (state, &event) in states.iter().zip(stream) {
                let mut state = *state;
                let answer = call(indexed, &mut state, event);
                answers[side].push((answer, state));
            }
            let time = (clock::now() - begun).as_nanos() as f64;
            best[side] = best[side].min(time / states.len() as f64);
        }
        if answers[0] != answers[1] {
            return Err("the halves with an index answer differently".into());
        }
    }
    Ok(best)
}
