//! What the model cleans of the policies that `clean` is counted on, and whether
//! the library does the same.

use crate::engine::{Engine, Model};
use crate::graph::Graph;
use crate::parse;
use crate::reading::Reading;
use bench::cases::Preparation;
use bench::cleanings::{CLEANED, LIBRARY};
use bench::file::MOST_STATES;
use bench::work::CleanWork;

/// A line for each policy: its states, how many of them are live and how many
/// are reached, and what is struck out: locations, their rules, and other rules.
pub fn table() -> Result<String, String> {
    let mut table = String::new();
    for cleaning in &CLEANED {
        let cleaned = by_model(cleaning);
        if !library_agrees(cleaning, &cleaned) {
            return Err(format!("{}: the library cleans differently", cleaning.name));
        }
        let numbers = numbers(cleaning, &cleaned).map(|number| format!(" {number:>6}"));
        table += &format!("{:<40}{}\n", cleaning.name, numbers.concat());
    }
    Ok(table)
}

fn by_model(cleaning: &Preparation) -> CleanWork {
    let mut work = cleaning.clean_work();
    work.clean(|reading, file, cleaned, struck| Model.clean(reading, file, cleaned, struck));
    work
}

/// Where there is a library.
fn library_agrees(cleaning: &Preparation, cleaned: &CleanWork) -> bool {
    let mut work = cleaning.clean_work();
    LIBRARY.is_none_or(|clean| {
        work.clean(clean);
        work == *cleaned
    })
}

fn numbers(cleaning: &Preparation, cleaned: &CleanWork) -> [usize; 6] {
    let prepared = Model.prepare(cleaning.reading, &cleaning.file(), &mut [0; MOST_STATES]);
    let struck = |kind| {
        let entries = cleaned.list().chunks_exact(3);
        entries.filter(|entry| entry[0] == kind).count()
    };
    [
        (prepared >> 16 & 0xFF_FFFF) as usize,
        (prepared >> 40) as usize,
        reached(cleaning),
        struck(1),
        struck(2),
        struck(3),
    ]
}

fn reached(cleaning: &Preparation) -> usize {
    let policy = parse::check(&cleaning.file()).expect("a policy");
    let reading = Reading::named(cleaning.reading).expect("a reading");
    let reached = Graph::new(&policy, reading).reached();
    reached.iter().filter(|&&reached| reached).count()
}
