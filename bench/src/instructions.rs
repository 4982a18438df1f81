//! A number of ticks or calls on one side only, for a tool that counts
//! instructions.

use crate::cases::Preparation;
use crate::cleanings::Clean;
use crate::engine::{found_in, refusal_in, Engine};
use crate::policies;
use crate::ready::Ready;
use crate::streams::{Stream, Wave};
use crate::work::{CallWork, HalfWork};

/// This many events are always made, however many are run, so that all that
/// is done before the first tick is the same for every number of ticks.
pub const MOST_TICKS: usize = 65_536;

/// One call of run over the first `ticks` events of the stream.
pub fn run(engine: &dyn Engine, stream: &Stream, ticks: usize) -> Result<(), String> {
    if ticks > MOST_TICKS {
        return Err(format!("at most {MOST_TICKS} ticks"));
    }
    let answer = stream.run(MOST_TICKS).run_first(engine, ticks);
    match (refusal_in(answer), found_in(answer)) {
        (0, count) if count == ticks => Ok(()),
        (refusal, count) => Err(format!("refused {refusal} after {count} ticks")),
    }
}

/// As many moments are always made, however many are called at.
pub const MOST_CALLS: usize = 256;

/// One call of the input half at each of the first moments of the stream.
pub fn input(engine: &dyn Engine, stream: &Stream, calls: usize) -> Result<(), String> {
    let (ready, events) = moments(stream, calls)?;
    HalfWork::input(ready, &events).call_first(engine, calls);
    Ok(())
}

/// The same for the output half.
pub fn output(engine: &dyn Engine, stream: &Stream, calls: usize) -> Result<(), String> {
    let (ready, events) = moments(stream, calls)?;
    HalfWork::output(ready, &events).call_first(engine, calls);
    Ok(())
}

fn moments(stream: &Stream, calls: usize) -> Result<(Ready, Vec<u8>), String> {
    match calls <= MOST_CALLS {
        true => Ok(stream.ready(MOST_CALLS)),
        false => Err(format!("at most {MOST_CALLS} calls")),
    }
}

/// The events of a wave: as many as there can be.
const EVENTS: usize = 16_384;

/// So many calls of the wave writer.
pub fn write(engine: &dyn Engine, wave: &Wave, calls: usize) -> Result<(), String> {
    let mut work = CallWork::wave_write(&policies::short(), wave.events(EVENTS));
    (0..calls).try_for_each(|_| not_refused(work.call(engine)))
}

/// So many calls of the reader, of the text of the same stream.
pub fn read(engine: &dyn Engine, wave: &Wave, calls: usize) -> Result<(), String> {
    let mut work = CallWork::wave_read(&policies::short(), wave.events(EVENTS));
    (0..calls).try_for_each(|_| not_refused(work.call(engine)))
}

/// So many calls of prepare. That a policy is hopeless is an answer too.
pub fn prepare(engine: &dyn Engine, preparation: &Preparation, calls: usize) -> Result<(), String> {
    let mut work = preparation.work();
    for _ in 0..calls {
        work.call(engine);
    }
    Ok(())
}

/// So many calls of the library's clean.
pub fn clean(clean: Clean, preparation: &Preparation, calls: usize) -> Result<(), String> {
    let mut work = preparation.clean_work();
    (0..calls).try_for_each(|_| not_refused(work.clean(clean)))
}

fn not_refused(answer: u64) -> Result<(), String> {
    match refusal_in(answer) {
        0 => Ok(()),
        refusal => Err(format!("refused {refusal}")),
    }
}

#[cfg(test)]
mod tests {
    use super::*;
    use crate::engine::Plain;
    use crate::streams::{STREAMS, WAVES};

    #[test]
    fn any_number_of_ticks_up_to_the_most_can_be_run() {
        for ticks in [0, 1, MOST_TICKS] {
            assert_eq!(run(&Plain, &STREAMS[0], ticks), Ok(()));
        }
        assert!(run(&Plain, &STREAMS[0], MOST_TICKS + 1).is_err());
    }

    #[test]
    fn every_wave_can_be_written_and_read() {
        for wave in &WAVES {
            for counted in [write, read] {
                for calls in [0, 1, 3] {
                    assert_eq!(counted(&Plain, wave, calls), Ok(()));
                }
            }
        }
    }

    #[test]
    fn any_number_of_calls_up_to_the_most_can_be_made() {
        for half in [input, output] {
            for calls in [0, 1, MOST_CALLS] {
                assert_eq!(half(&Plain, &STREAMS[0], calls), Ok(()));
            }
            assert!(half(&Plain, &STREAMS[0], MOST_CALLS + 1).is_err());
        }
    }
}
