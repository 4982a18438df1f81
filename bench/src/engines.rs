//! The two engines of prepare side by side: the looks of each by its method,
//! and with the library the time of each.

use crate::falling::{self, row_of, Falling};
use crate::plain::looks::{self, Looked};

pub fn heading() -> String {
    row_of(
        "policy",
        &[
            "states",
            "live",
            "sweeps' looks",
            "walk's looks",
            "verdict's",
            "plain ms",
            "fast ms",
        ],
    )
}

/// The rows of the policies whose names begin so. An error says that the engines
/// differ.
pub fn rows(policy: &str) -> Result<Vec<String>, String> {
    falling::rows(falling::all(), policy, row)
}

fn row(falling: &Falling) -> Result<String, String> {
    let refused = |refusal| format!("{}: refused, {refusal:?}", falling.name);
    let swept = looks::sweeps(1, &falling.file).map_err(refused)?;
    let walked = looks::walk(1, &falling.file).map_err(refused)?;
    if swept.marks != walked.marks {
        return Err(format!("{}: the two methods differ", falling.name));
    }
    let verdict = looks::verdict(1, &falling.file, &walked.marks).map_err(refused)?;
    let [plain, fast] = times(falling, &walked)?;
    let live = walked.marks.iter().filter(|&&mark| mark == 1).count();
    Ok(row_of(
        falling.name,
        &[
            &walked.marks.len().to_string(),
            &live.to_string(),
            &swept.looks.to_string(),
            &walked.looks.to_string(),
            &verdict.to_string(),
            &plain,
            &fast,
        ],
    ))
}

/// Without the library there is nothing to time.
#[cfg(not(feature = "library"))]
fn times(_: &Falling, _: &Looked) -> Result<[String; 2], String> {
    Ok(["-".into(), "-".into()])
}

/// The best of three each, in milliseconds.
#[cfg(feature = "library")]
fn times(falling: &Falling, walked: &Looked) -> Result<[String; 2], String> {
    use crate::clock;
    use crate::engine::Engine;
    use crate::file::MOST_STATES;
    use crate::library::{prepare_fast, Library};

    let mut marks = vec![7; MOST_STATES];
    let mut also = vec![7; MOST_STATES];
    let mut work = [0; 5].map(|_: u8| vec![0xABCD; MOST_STATES]);
    let mut best = [f64::MAX; 2];
    for _ in 0..3 {
        let begun = clock::now();
        let plain = Library.prepare(1, &falling.file, &mut marks);
        let between = clock::now();
        let fast = prepare_fast(1, &falling.file, &mut also, &mut work);
        let ended = clock::now();
        if plain != fast || marks != also || !also.starts_with(&walked.marks) {
            return Err(format!("{}: the two engines differ", falling.name));
        }
        best[0] = best[0].min((between - begun).as_secs_f64() * 1e3);
        best[1] = best[1].min((ended - between).as_secs_f64() * 1e3);
    }
    Ok(best.map(|time| format!("{time:.2}")))
}
