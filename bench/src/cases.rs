//! All that is measured, in the order of the table.

use crate::cleanings::CLEANED;
use crate::file::Policy;
use crate::policies;
use crate::streams::{Edits, Stream, Wave, STREAMS, WAVES};
use crate::texts::{Text, TEXTS};
use crate::work::{CallWork, CleanWork, HalfWork, Work};

/// Long enough that the one check of the file is a small part of a run, and
/// that no branch predictor learns the stream.
const TICKS: usize = 16_384;

/// How many moments of a run the halves are called at.
const MOMENTS: usize = 1_024;

/// What the library may take of the time of the maker's program.
const RUN: f64 = 1.1;
const PREPARE: f64 = 1.0;
const HALF: f64 = 1.2;
const EDITED_HALF: f64 = 1.8;

pub struct Case {
    pub name: String,
    pub work: Box<dyn Work>,
    /// The most that it may take of the time of the maker's program, where that
    /// does this work too.
    pub limit: Option<f64>,
}

/// A policy that is prepared, under a reading.
pub struct Preparation {
    pub name: &'static str,
    pub reading: u8,
    policy: fn() -> Policy,
}

impl Preparation {
    pub fn named(name: &str) -> Option<&'static Preparation> {
        let mut all = PREPARED.iter().chain(&CLEANED);
        all.find(|preparation| preparation.name == name)
    }

    pub fn file(&self) -> Vec<u8> {
        (self.policy)().encode()
    }

    pub fn work(&self) -> CallWork {
        CallWork::prepare(self.reading, self.file())
    }

    pub fn clean_work(&self) -> CleanWork {
        CleanWork::new(self.reading, self.file())
    }
}

pub const fn prepared(name: &'static str, reading: u8, policy: fn() -> Policy) -> Preparation {
    Preparation {
        name,
        reading,
        policy,
    }
}

pub static PREPARED: [Preparation; 15] = [
    prepared("1,024 states", 1, policies::thousand),
    prepared("10,000 states", 1, policies::ten_thousand),
    prepared("65,536 states", 1, policies::full),
    prepared("most must be left", 1, policies::leaving),
    prepared("none dies", 1, policies::lasting),
    prepared("a third dies", 1, policies::third_dies),
    prepared("most die", 1, policies::most_die),
    prepared("all die", 1, policies::all_die),
    prepared("the dead not reached", 1, policies::apart),
    prepared("the longest file", 1, policies::long),
    prepared("128 rules where reached", 1, policies::reached_by_128),
    prepared("256 rules where reached", 1, policies::reached_by_256),
    prepared("65,536 states, reading 2", 2, policies::full),
    prepared("most must be left, reading 2", 2, policies::leaving),
    prepared("most die, reading 2", 2, policies::most_die),
];

pub fn all() -> Vec<Case> {
    let runs = STREAMS.iter().map(run);
    let halves = STREAMS
        .iter()
        .filter(|stream| stream.reading == 1 || stream.edits == Edits::Many)
        .flat_map(|stream| [input(stream), output(stream)]);
    let prepares = PREPARED.iter().map(prepare);
    let joins = [
        join("small", policies::small_pair()),
        join("the largest", policies::largest_pair()),
    ];
    let waves = WAVES.iter().flat_map(|wave| [write(wave), read(wave)]);
    let written = [
        case(
            "text writer",
            "small",
            CallWork::text_write(&policies::short()),
        ),
        case(
            "text writer",
            "the largest",
            CallWork::text_write(&policies::long()),
        ),
        case(
            "text writer",
            "no room for the last byte",
            CallWork::text_write_refused(&policies::long()),
        ),
    ];
    let texts = TEXTS.iter().map(read_text);
    runs.chain(halves)
        .chain(prepares)
        .chain(joins)
        .chain(waves)
        .chain(written)
        .chain(texts)
        .collect()
}

fn run(stream: &Stream) -> Case {
    beside_maker("run, a tick", stream.name, stream.run(TICKS), RUN)
}

fn input(stream: &Stream) -> Case {
    let (ready, events) = stream.ready(MOMENTS);
    half("input half", stream, HalfWork::input(ready, &events))
}

fn output(stream: &Stream) -> Case {
    let (ready, events) = stream.ready(MOMENTS);
    half("output half", stream, HalfWork::output(ready, &events))
}

fn half(which: &str, stream: &Stream, work: HalfWork) -> Case {
    let limit = match stream.edits {
        Edits::None => HALF,
        _ => EDITED_HALF,
    };
    beside_maker(which, stream.name, work, limit)
}

fn prepare(preparation: &Preparation) -> Case {
    beside_maker("prepare", preparation.name, preparation.work(), PREPARE)
}

fn join(size: &str, pair: (Policy, Policy)) -> Case {
    case("join", size, CallWork::join(pair))
}

fn write(wave: &Wave) -> Case {
    let work = CallWork::wave_write(&policies::short(), wave.events(TICKS));
    case("wave writer, an event", wave.name, work)
}

fn read(wave: &Wave) -> Case {
    let work = CallWork::wave_read(&policies::short(), wave.events(TICKS));
    case("wave reader, an event", wave.name, work)
}

fn read_text(text: &Text) -> Case {
    case("text reader", text.name, CallWork::text_read(text.bytes()))
}

fn case(function: &str, what: &str, work: impl Work + 'static) -> Case {
    Case {
        name: format!("{function}: {what}"),
        work: Box::new(work),
        limit: None,
    }
}

fn beside_maker(function: &str, what: &str, work: impl Work + 'static, limit: f64) -> Case {
    Case {
        limit: Some(limit),
        ..case(function, what, work)
    }
}

#[cfg(test)]
mod tests {
    use super::*;
    use crate::basis::Basis;
    use crate::engine::{refusal_in, Engine, Plain};
    use crate::maker::Maker;
    use crate::work::outcome_of;

    /// Writes nothing and claims success, with what no function finds.
    struct Idle;

    const NOTHING_DONE: u64 = 1 << 63;

    impl Engine for Idle {
        fn prepare(&self, _: u8, _: &[u8], _: &mut [u8]) -> u64 {
            NOTHING_DONE
        }

        fn input(&self, _: Basis, _: &[u16], _: u8) -> u64 {
            NOTHING_DONE
        }

        fn output(&self, _: Basis, _: &mut [u16], _: u8, _: u8) -> u64 {
            NOTHING_DONE
        }

        fn run(&self, _: Basis, _: &mut [u16], _: &[u8], _: &mut [u8]) -> u64 {
            NOTHING_DONE
        }

        fn join(&self, _: &[u8], _: &[u8], _: &mut [u8]) -> u64 {
            NOTHING_DONE
        }

        fn wave_write(&self, _: &[u8], _: &[u8], _: &mut [u8]) -> u64 {
            NOTHING_DONE
        }

        fn wave_read(&self, _: &[u8], _: &[u8], _: &mut [u8]) -> u64 {
            NOTHING_DONE
        }

        fn text_read(&self, _: &[u8], _: &mut [u8]) -> u64 {
            NOTHING_DONE
        }

        fn text_write(&self, _: &[u8], _: &mut [u8]) -> u64 {
            NOTHING_DONE
        }
    }

    /// But for the policy all of whose states die, which has its marks and the
    /// refusal 11, and for what says so.
    #[test]
    fn nothing_else_that_is_measured_is_refused() {
        for mut case in all() {
            let expected = match case.name.as_str() {
                "prepare: all die" => 11,
                "text writer: no room for the last byte" => 14,
                "text reader: refused in the last line" => 31,
                "text reader: refused in the first line" => 30,
                _ => 0,
            };
            let outcome = outcome_of(case.work.as_mut(), &Plain);
            let as_expected = outcome
                .answers
                .iter()
                .all(|&answer| refusal_in(answer) == expected);
            assert!(as_expected, "{}", case.name);
        }
    }

    /// Rounds can be repeated in the same buffers.
    #[test]
    fn a_pass_leaves_nothing_that_the_next_one_feels() {
        for mut case in all() {
            let work = case.work.as_mut();
            let first = outcome_of(work, &Plain);
            work.pass(&Plain);
            assert!(work.outcome() == first, "{}", case.name);
        }
    }

    #[test]
    fn the_maker_answers_as_the_plain_program() {
        let maker = Maker::new();
        for mut case in all() {
            let work = case.work.as_mut();
            let plain = outcome_of(work, &Plain);
            assert!(outcome_of(work, &maker) == plain, "{}", case.name);
        }
    }

    #[test]
    fn a_side_that_does_nothing_is_noticed() {
        for mut case in all() {
            let work = case.work.as_mut();
            let plain = outcome_of(work, &Plain);
            assert!(outcome_of(work, &Idle) != plain, "{}", case.name);
        }
    }
}
