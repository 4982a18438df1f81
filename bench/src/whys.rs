//! `why` against the second engine of prepare, on policies with a live start to
//! ask about: what the exact counts of all states cost beside the marks.

use crate::falling::{self, row_of, Falling};
use crate::plain::looks::{self, Looked};

pub fn heading() -> String {
    row_of(
        "policy",
        &["states", "live", "fast ms", "why ms", "why to fast"],
    )
}

/// The rows of the policies whose names begin so. An error says that a call is
/// refused.
pub fn rows(policy: &str) -> Result<Vec<String>, String> {
    falling::rows(falling::living(), policy, row)
}

fn row(falling: &Falling) -> Result<String, String> {
    let refused = |refusal| format!("{}: refused, {refusal:?}", falling.name);
    let walked = looks::walk(1, &falling.file).map_err(refused)?;
    let [fast, why, ratio] = times(falling, &walked)?;
    let live = walked.marks.iter().filter(|&&mark| mark == 1).count();
    Ok(row_of(
        falling.name,
        &[
            &walked.marks.len().to_string(),
            &live.to_string(),
            &fast,
            &why,
            &ratio,
        ],
    ))
}

/// Without the library there is nothing to time.
#[cfg(not(feature = "library"))]
fn times(_: &Falling, _: &Looked) -> Result<[String; 3], String> {
    Ok(["-".into(), "-".into(), "-".into()])
}

/// The best of five each, in milliseconds, and the ratio of the two.
#[cfg(feature = "library")]
fn times(falling: &Falling, walked: &Looked) -> Result<[String; 3], String> {
    use crate::clock;
    use crate::engine::{refusal_in, START};
    use crate::file::MOST_STATES;
    use crate::library::{prepare_fast, why};

    let mut marks = vec![7; MOST_STATES];
    let mut work = [0; 5].map(|_: u8| vec![0xABCD; MOST_STATES]);
    let mut best = [f64::MAX; 2];
    for _ in 0..5 {
        let begun = clock::now();
        let prepared = prepare_fast(1, &falling.file, &mut marks, &mut work);
        let between = clock::now();
        let told = why(1, &falling.file, &marks, &START, 0, 0);
        let ended = clock::now();
        if refusal_in(prepared) != 0 || refusal_in(told) != 0 || !marks.starts_with(&walked.marks) {
            return Err(format!("{}: refused, or other marks", falling.name));
        }
        best[0] = best[0].min((between - begun).as_secs_f64() * 1e3);
        best[1] = best[1].min((ended - between).as_secs_f64() * 1e3);
    }
    let [fast, why] = best;
    Ok([fast, why, why / fast].map(|number| format!("{number:.2}")))
}
