//! Sets the plain program and the maker's against the reference model, on random
//! calls and on the laws of joins and runs, and the library's clean on the policies
//! that it is counted on.

mod cleanings;

// The model and its random cases, as they stand. Not all of it is used here.
#[path = "../../independent/src"]
mod model {
    pub mod bays;
    #[allow(dead_code)]
    pub mod call;
    pub mod cases;
    pub mod clean;
    #[allow(dead_code)]
    pub mod compare;
    pub mod damage;
    pub mod enforce;
    pub mod engine;
    pub mod events;
    pub mod graph;
    pub mod handwriting;
    #[allow(dead_code)]
    pub mod hex;
    pub mod index;
    pub mod join;
    pub mod laws;
    pub mod meter;
    pub mod moment;
    pub mod parse;
    pub mod policies;
    pub mod policy;
    pub mod random;
    pub mod reading;
    #[allow(dead_code)]
    pub mod refusal;
    pub mod rules;
    pub mod spoil;
    pub mod subject;
    pub mod text;
    pub mod ticks;
    pub mod waves;
    pub mod why;
}

use basis::Basis;
// One type for both sides.
use bench::basis;
use bench::engine::Plain;
use bench::maker::Maker;
use call::Work;
use compare::Tally;
use engine::{Engine, Model};
use index::Indexed;
use meter::Lent;
// The modules of the model name each other from the root.
use model::*;
use std::process::ExitCode;
use text::Sought;
use why::Told;

const USAGE: &str = "usage: agree GROUPS SEED\n       agree cleanings";

fn main() -> ExitCode {
    bench::command::done(|words| {
        let found = match *words {
            ["cleanings"] => cleanings::table()?,
            [groups, seed] => at_random(number(groups)?, number(seed)?)?,
            _ => return Err(USAGE.to_string()),
        };
        println!("{found}no difference");
        Ok(())
    })
}

/// What was compared, for the plain program and then for the maker's.
fn at_random(groups: u64, seed: u64) -> Result<String, String> {
    let maker = Maker::new();
    let sides: [&dyn bench::engine::Engine; 2] = [&Plain, &maker];
    let mut found = String::new();
    for side in sides {
        let mut tally = Tally::default();
        let goes_on = |group| group < groups;
        compare::compare(&mut Side(side), seed, goes_on, false, &mut tally)?;
        found += &tally.to_string();
    }
    Ok(found)
}

fn number(word: &str) -> Result<u64, String> {
    word.parse()
        .map_err(|_| format!("not a number: {word}\n{USAGE}"))
}

/// A program of the benchmark where the model expects a library.
struct Side<'a>(&'a dyn bench::engine::Engine);

/// Hands a question on.
macro_rules! asks {
    ($($function:ident($($given:ident: $kind:ty),*);)+) => {
        $(fn $function(&mut self, $($given: $kind),*) -> u64 {
            self.0.$function($($given),*)
        })+
    };
    ($side:ident: $($function:ident($($given:ident: $kind:ty),*);)+) => {
        $(fn $function(&mut self, $($given: $kind),*) -> u64 {
            $side.$function($($given),*)
        })+
    };
}

impl Engine for Side<'_> {
    asks! {
        prepare(reading: u8, file: &[u8], marks: &mut [u8]);
        input(basis: Basis, state: &[u16], x: u8);
        output(basis: Basis, state: &mut [u16], x: u8, y: u8);
        run(basis: Basis, state: &mut [u16], events: &[u8], released: &mut [u8]);
        join(a: &[u8], b: &[u8], out: &mut [u8]);
        wave_write(file: &[u8], events: &[u8], text: &mut [u8]);
        wave_read(file: &[u8], text: &[u8], events: &mut [u8]);
        text_read(text: &[u8], file: &mut [u8]);
        text_write(file: &[u8], text: &mut [u8]);
    }

    // What follows is not measured, so no program here has any of it.
    asks! { Model:
        check(file: &[u8]);
        ticks(milliseconds: u32, tick_length: u32, up: u8);
        index(file: &[u8], index: &mut [u16]);
        input_indexed(indexed: Indexed, state: &[u16], x: u8);
        output_indexed(indexed: Indexed, state: &mut [u16], x: u8, y: u8);
        bays_new(states: &mut [u16]);
        bay_input(basis: Basis, states: &[u16], bay: u32, x: u8);
        bay_output(basis: Basis, states: &mut [u16], bay: u32, x: u8, y: u8);
        meter_new(station: &mut [u16], totals: &mut [u32], register: u16);
        meter_input(basis: Basis, station: &[u16], register: u16, x: u8);
        meter_output(basis: Basis, lent: Lent, register: u16, x: u8, y: u8);
        prepare_fast(reading: u8, file: &[u8], marks: &mut [u8], work: &mut Work);
        clean(reading: u8, file: &[u8], cleaned: &mut [u8], struck: &mut [u8]);
        why(basis: Basis, state: &[u16], x: u8, y: u8);
        why_run(basis: Basis, state: &mut [u16], events: &[u8], told: Told);
        text_place(sought: Sought, text: &[u8], number: u32);
    }
}
