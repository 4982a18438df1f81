//! The functions and what each is given.

/// Declares the functions: the name, and all that it is given in the order of a
/// stored case, each with its kind. What is lent for writing is there `before`.
macro_rules! calls {
    ($($call:ident $name:literal: $($field:ident $kind:ident $($before:ident)?),+;)+) => {
        #[derive(Clone, Debug, PartialEq, Eq)]
        pub enum Call {
            $($call { $($field: kinds::$kind),+ }),+
        }

        #[derive(Clone, Copy)]
        enum Function {
            $($call),+
        }

        /// The functions, in the order of `Call::kind`.
        pub const FUNCTIONS: [&str; [$($name),+].len()] = [$($name),+];

        impl Call {
            /// The place of the function in `FUNCTIONS`.
            pub fn kind(&self) -> usize {
                let function = match self {
                    $(Call::$call { .. } => Function::$call),+
                };
                function as usize
            }

            /// All that the function is given, by name.
            pub fn given(&self) -> Vec<(&'static str, Given<'_>)> {
                match self {
                    $(Call::$call { $($field),+ } => vec![$((
                        concat!(stringify!($field) $(, " ", stringify!($before))?),
                        Given::$kind($field),
                    )),+]),+
                }
            }

            /// The same, to be put there.
            pub fn places(&mut self) -> Vec<Place<'_>> {
                match self {
                    $(Call::$call { $($field),+ } => vec![$(Place::$kind($field)),+]),+
                }
            }

            /// A call of the function at a place in `FUNCTIONS`, with nothing in it.
            pub fn blank(kind: usize) -> Option<Call> {
                let calls = [$(Call::$call { $($field: Default::default()),+ }),+];
                calls.into_iter().nth(kind)
            }
        }
    };
}

calls! {
    Prepare "prepare": reading Byte, file Policy, marks Bytes before;
    Input "input": reading Byte, file Policy, marks Bytes, state Numbers, x Byte;
    Output "output":
        reading Byte, file Policy, marks Bytes, state Numbers before, x Byte, y Byte;
    Run "run":
        reading Byte, file Policy, marks Bytes, state Numbers before,
        events Bytes, released Bytes before;
    Join "join": a Policy, b Policy, out Policy before;
    Ticks "ticks": milliseconds Word, tick_length Word, up Byte;
    WaveWrite "wave_write": file Policy, events Bytes, text Bytes before;
    WaveRead "wave_read": file Policy, text Bytes, events Bytes before;
    Index "index": file Policy, index Numbers before;
    InputIndexed "input_indexed":
        reading Byte, file Policy, marks Bytes, state Numbers, index Numbers, x Byte;
    OutputIndexed "output_indexed":
        reading Byte, file Policy, marks Bytes, state Numbers before, index Numbers,
        x Byte, y Byte;
    BaysNew "bays_new": states Numbers before;
    BayInput "bay_input":
        reading Byte, file Policy, marks Bytes, states Numbers, bay Word, x Byte;
    BayOutput "bay_output":
        reading Byte, file Policy, marks Bytes, states Numbers before, bay Word,
        x Byte, y Byte;
    MeterNew "meter_new": station Numbers before, totals Totals before, register Pair;
    MeterInput "meter_input":
        reading Byte, file Policy, marks Bytes, station Numbers, register Pair, x Byte;
    MeterOutput "meter_output":
        reading Byte, file Policy, marks Bytes, station Numbers before,
        totals Totals before, register Pair, x Byte, y Byte;
    PrepareFast "prepare_fast": reading Byte, file Policy, marks Bytes before, work Work;
    Clean "clean": reading Byte, file Policy, cleaned Policy before, struck Policy before;
    Why "why": reading Byte, file Policy, marks Bytes, state Numbers, x Byte, y Byte;
    Check "check": file Policy;
    WhyRun "why_run":
        reading Byte, file Policy, marks Bytes, state Numbers before,
        events Bytes, reasons Longs before, ticks Table, rests Table,
        prepared Bytes, work Work;
    TextRead "text_read": text Bytes, file Policy before;
    TextWrite "text_write": file Policy, text Bytes before;
    TextLineOfRule "text_line_of_rule": text Bytes, number Word;
    TextNameOfSignal "text_name_of_signal": text Bytes, number Word;
    TextNameOfClock "text_name_of_clock": text Bytes, number Word;
    TextNameOfLocation "text_name_of_location": text Bytes, number Word;
}

/// Declares the kinds of what a function is given: as it stands in a call, as
/// it is looked at, and as it is put there.
macro_rules! kinds {
    ($($(#[$about:meta])* $kind:ident: $owned:ty;)+) => {
        mod kinds {
            $(pub type $kind = $owned;)+
        }

        /// One thing that a function is given.
        pub enum Given<'a> {
            $($(#[$about])* $kind(&'a kinds::$kind)),+
        }

        /// Where one thing stands that a function is given.
        pub enum Place<'a> {
            $($kind(&'a mut kinds::$kind)),+
        }
    };
}

kinds! {
    Byte: u8;
    Pair: u16;
    Word: u32;
    /// A policy, or the slice for one.
    Policy: Vec<u8>;
    /// Marks, events, the text of a wave or of a policy, or a slice for them.
    Bytes: Vec<u8>;
    /// A state, or what else is lent as numbers of 16 bits.
    Numbers: Vec<u16>;
    /// The totals of a meter.
    Totals: Vec<u32>;
    /// The work slices of the second engine, of which reasons for a run take
    /// five too. What they hold afterwards is not said.
    Work: [Vec<u16>; 5];
    /// The reasons of a run.
    Longs: Vec<u64>;
    /// A table that reasons for a run work in. What it holds afterwards is not
    /// said.
    Table: Vec<u32>;
}

pub use kinds::Work;
