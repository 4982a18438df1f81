//! A call put to an engine, and what came of it.

use super::Call;
use crate::engine::Engine;
use crate::text::Sought;
use crate::why::Told;

/// An answer and the later contents of what was lent for writing.
#[derive(Clone, Debug, Default, PartialEq, Eq)]
pub struct Outcome {
    pub answer: u64,
    /// The marks of both prepares, the released events of run, the file of join,
    /// the text of the wave writer, the events of its reader, the cleaned file,
    /// the file of a text, the text of a file; otherwise empty.
    pub bytes: Vec<u8>,
    /// The state of output and both runs, the index, the states of the bays, the
    /// station of a meter; otherwise empty.
    pub state: Vec<u16>,
    /// The totals of a meter; otherwise empty.
    pub totals: Vec<u32>,
    /// The list of what a cleaning struck out; otherwise empty.
    pub struck: Vec<u8>,
    /// The reasons of a run; otherwise empty.
    pub reasons: Vec<u64>,
    /// A byte not lent for writing was changed.
    pub strayed: bool,
}

impl Call {
    pub fn make(&self, engine: &mut dyn Engine) -> Outcome {
        let basis = self.basis();
        let (reading, file, _) = basis.parts();
        let mut bytes = self.lent_bytes().to_vec();
        let mut numbers = self.lent_state().to_vec();
        let mut totals = self.lent_totals().to_vec();
        let mut struck = self.lent_list().to_vec();
        let mut reasons = self.lent_reasons().to_vec();
        let answer = match self {
            Call::Prepare { .. } => engine.prepare(reading, file, &mut bytes),
            Call::Input { state, x, .. } => engine.input(basis, state, *x),
            Call::Output { x, y, .. } => engine.output(basis, &mut numbers, *x, *y),
            Call::Run { events, .. } => engine.run(basis, &mut numbers, events, &mut bytes),
            Call::Join { a, b, .. } => engine.join(a, b, &mut bytes),
            Call::Ticks {
                milliseconds,
                tick_length,
                up,
            } => engine.ticks(*milliseconds, *tick_length, *up),
            Call::WaveWrite { events, .. } => engine.wave_write(file, events, &mut bytes),
            Call::WaveRead { text, .. } => engine.wave_read(file, text, &mut bytes),
            Call::Index { .. } => engine.index(file, &mut numbers),
            Call::InputIndexed {
                state, index, x, ..
            } => engine.input_indexed((basis, index), state, *x),
            Call::OutputIndexed { index, x, y, .. } => {
                engine.output_indexed((basis, index), &mut numbers, *x, *y)
            }
            Call::BaysNew { .. } => engine.bays_new(&mut numbers),
            Call::BayInput { states, bay, x, .. } => engine.bay_input(basis, states, *bay, *x),
            Call::BayOutput { bay, x, y, .. } => {
                engine.bay_output(basis, &mut numbers, *bay, *x, *y)
            }
            Call::MeterNew { register, .. } => {
                engine.meter_new(&mut numbers, &mut totals, *register)
            }
            Call::MeterInput {
                station,
                register,
                x,
                ..
            } => engine.meter_input(basis, station, *register, *x),
            Call::MeterOutput { register, x, y, .. } => {
                let lent = (&mut numbers[..], &mut totals[..]);
                engine.meter_output(basis, lent, *register, *x, *y)
            }
            Call::PrepareFast { work, .. } => {
                engine.prepare_fast(reading, file, &mut bytes, &mut work.clone())
            }
            Call::Clean { .. } => engine.clean(reading, file, &mut bytes, &mut struck),
            Call::Why { state, x, y, .. } => engine.why(basis, state, *x, *y),
            Call::Check { .. } => engine.check(file),
            Call::WhyRun {
                events,
                ticks,
                rests,
                prepared,
                work,
                ..
            } => {
                let told = Told {
                    reasons: &mut reasons,
                    ticks: &mut ticks.clone(),
                    rests: &mut rests.clone(),
                    prepared: &mut prepared.clone(),
                    work: &mut work.clone(),
                };
                engine.why_run(basis, &mut numbers, events, told)
            }
            Call::TextRead { text, .. } => engine.text_read(text, &mut bytes),
            Call::TextWrite { .. } => engine.text_write(file, &mut bytes),
            Call::TextLineOfRule { text, number } => {
                engine.text_place(Sought::LineOfRule, text, *number)
            }
            Call::TextNameOfSignal { text, number } => {
                engine.text_place(Sought::NameOfSignal, text, *number)
            }
            Call::TextNameOfClock { text, number } => {
                engine.text_place(Sought::NameOfClock, text, *number)
            }
            Call::TextNameOfLocation { text, number } => {
                engine.text_place(Sought::NameOfLocation, text, *number)
            }
        };
        Outcome {
            answer,
            bytes,
            state: numbers,
            totals,
            struck,
            reasons,
            strayed: engine.strayed(),
        }
    }
}
