//! The C functions over slices. All that is unsafe is in this module, in one place:
//! the macro that hands a slice over as its pointer and its length.

#[path = "../../../include/groovepawn.rs"]
mod declared;

use declared::*;

pub(crate) const VERSION: (u32, u32, u32) = (
    GROOVEPAWN_VERSION_MAJOR,
    GROOVEPAWN_VERSION_MINOR,
    GROOVEPAWN_VERSION_PATCH,
);
pub(crate) const MOST_FILE_BYTES: usize = GROOVEPAWN_MOST_FILE_BYTES;
pub(crate) const MOST_STATES: usize = GROOVEPAWN_MOST_STATES;
pub(crate) const MOST_EVENTS_OF_A_WAVE: usize = GROOVEPAWN_MOST_EVENTS_OF_A_WAVE;
pub(crate) const MOST_TEXT_BYTES: usize = GROOVEPAWN_MOST_TEXT_BYTES;
pub(crate) const MOST_POLICY_TEXT_BYTES: usize = GROOVEPAWN_MOST_POLICY_TEXT_BYTES;
pub(crate) const MOST_STRUCK_BYTES: usize = GROOVEPAWN_MOST_STRUCK_BYTES;
pub(crate) const STATE_LEN: usize = GROOVEPAWN_STATE_LEN;
pub(crate) const STATION_LEN: usize = GROOVEPAWN_STATION_LEN;
pub(crate) const TOTALS_LEN: usize = GROOVEPAWN_TOTALS_LEN;
pub(crate) const INDEX_LEN: usize = GROOVEPAWN_INDEX_LEN;

/// A slice as C has it. Only one that may be written gives a pointer to write by, so
/// that a slice lent for reading does not fit a function that writes it.
trait Lent {
    type Pointer;

    fn pointer(&mut self) -> Self::Pointer;
    fn length(&self) -> usize;
}

impl<T> Lent for &[T] {
    type Pointer = *const T;

    fn pointer(&mut self) -> *const T {
        self.as_ptr()
    }

    fn length(&self) -> usize {
        self.len()
    }
}

impl<T> Lent for &mut [T] {
    type Pointer = *mut T;

    fn pointer(&mut self) -> *mut T {
        self.as_mut_ptr()
    }

    fn length(&self) -> usize {
        self.len()
    }
}

/// Calls a function with what comes before the slices, the slices, and what comes
/// after them.
macro_rules! call {
    ($function:ident[$($first:expr),*][$($slice:ident),*][$($last:expr),*]) => {{
        $(let mut $slice = $slice;)*
        // SAFETY: the function asks of its caller that each pointer and the length
        // behind it are those of one slice, aligned and not null, and that what it
        // writes overlaps nothing else of the call. They come from one reference
        // here, which is alive during the call, and a `&mut` overlaps no other. It
        // keeps no pointer, and takes any contents: it has no other condition.
        let answer = unsafe {
            $function($($first,)* $($slice.pointer(), $slice.length(),)* $($last,)*)
        };
        u64::from(answer)
    }};
}

/// What most functions take first: the reading, the file, the marks.
#[derive(Clone, Copy)]
pub(crate) struct Basis<'a> {
    pub reading: u8,
    pub file: &'a [u8],
    pub marks: &'a [u8],
}

impl<'a> Basis<'a> {
    fn parts(self) -> (u8, &'a [u8], &'a [u8]) {
        (self.reading, self.file, self.marks)
    }
}

pub(crate) fn check(file: &[u8]) -> u64 {
    call!(groovepawn_check[][file][])
}

pub(crate) fn prepare(reading: u8, file: &[u8], marks: &mut [u8]) -> u64 {
    call!(groovepawn_prepare[reading][file, marks][])
}

/// What the second engine works in: five slices with an entry for each state.
pub(crate) type Work = [Vec<u16>; 5];

pub(crate) fn work(states: usize) -> Work {
    std::array::from_fn(|_| vec![0; states])
}

pub(crate) fn prepare_fast(reading: u8, file: &[u8], marks: &mut [u8], work: &mut Work) -> u64 {
    let [one, two, three, four, five] = work.each_mut().map(Vec::as_mut_slice);
    call!(groovepawn_prepare_fast[reading][file, marks, one, two, three, four, five][])
}

pub(crate) fn input(basis: Basis, state: &[u16], x: u8) -> u64 {
    let (reading, file, marks) = basis.parts();
    call!(groovepawn_input[reading][file, marks, state][x])
}

pub(crate) fn output(basis: Basis, state: &mut [u16], x: u8, y: u8) -> u64 {
    let (reading, file, marks) = basis.parts();
    call!(groovepawn_output[reading][file, marks, state][x, y])
}

pub(crate) fn run(basis: Basis, state: &mut [u16], events: &[u8], released: &mut [u8]) -> u64 {
    let (reading, file, marks) = basis.parts();
    call!(groovepawn_run[reading][file, marks, state, events, released][])
}

pub(crate) fn join(a: &[u8], b: &[u8], out: &mut [u8]) -> u64 {
    call!(groovepawn_join[][a, b, out][])
}

pub(crate) fn ticks(milliseconds: u32, tick_length: u32, up: u8) -> u64 {
    call!(groovepawn_ticks[milliseconds, tick_length, up][][])
}

pub(crate) fn wave_write(file: &[u8], events: &[u8], text: &mut [u8]) -> u64 {
    call!(groovepawn_wave_write[][file, events, text][])
}

pub(crate) fn wave_read(file: &[u8], text: &[u8], events: &mut [u8]) -> u64 {
    call!(groovepawn_wave_read[][file, text, events][])
}

pub(crate) fn index(file: &[u8], index: &mut [u16]) -> u64 {
    call!(groovepawn_index[][file, index][])
}

pub(crate) fn input_indexed(basis: Basis, index: &[u16], state: &[u16], x: u8) -> u64 {
    let (reading, file, marks) = basis.parts();
    call!(groovepawn_input_indexed[reading][file, index, marks, state][x])
}

pub(crate) fn output_indexed(basis: Basis, index: &[u16], state: &mut [u16], x: u8, y: u8) -> u64 {
    let (reading, file, marks) = basis.parts();
    call!(groovepawn_output_indexed[reading][file, index, marks, state][x, y])
}

pub(crate) fn bays_new(states: &mut [u16]) -> u64 {
    call!(groovepawn_bays_new[][states][])
}

pub(crate) fn bay_input(basis: Basis, states: &[u16], bay: u32, x: u8) -> u64 {
    let (reading, file, marks) = basis.parts();
    call!(groovepawn_bay_input[reading][file, marks, states][bay, x])
}

pub(crate) fn bay_output(basis: Basis, states: &mut [u16], bay: u32, x: u8, y: u8) -> u64 {
    let (reading, file, marks) = basis.parts();
    call!(groovepawn_bay_output[reading][file, marks, states][bay, x, y])
}

pub(crate) fn meter_new(station: &mut [u16], totals: &mut [u32], register: u16) -> u64 {
    call!(groovepawn_meter_new[][station, totals][register])
}

pub(crate) fn meter_input(basis: Basis, station: &[u16], register: u16, x: u8) -> u64 {
    let (reading, file, marks) = basis.parts();
    call!(groovepawn_meter_input[reading][file, marks, station][register, x])
}

pub(crate) fn meter_output(
    basis: Basis,
    station: &mut [u16],
    totals: &mut [u32],
    register: u16,
    x: u8,
    y: u8,
) -> u64 {
    let (reading, file, marks) = basis.parts();
    call!(groovepawn_meter_output[reading][file, marks, station, totals][register, x, y])
}

pub(crate) fn clean(reading: u8, file: &[u8], cleaned: &mut [u8], struck: &mut [u8]) -> u64 {
    call!(groovepawn_clean[reading][file, cleaned, struck][])
}

pub(crate) fn text_read(text: &[u8], file: &mut [u8]) -> u64 {
    call!(groovepawn_text_read[][text, file][])
}

pub(crate) fn text_write(file: &[u8], text: &mut [u8]) -> u64 {
    call!(groovepawn_text_write[][file, text][])
}

pub(crate) fn text_line_of_rule(text: &[u8], rule: u32) -> u64 {
    call!(groovepawn_text_line_of_rule[][text][rule])
}

pub(crate) fn text_name_of_signal(text: &[u8], signal: u32) -> u64 {
    call!(groovepawn_text_name_of_signal[][text][signal])
}

pub(crate) fn text_name_of_clock(text: &[u8], clock: u32) -> u64 {
    call!(groovepawn_text_name_of_clock[][text][clock])
}

pub(crate) fn text_name_of_location(text: &[u8], location: u32) -> u64 {
    call!(groovepawn_text_name_of_location[][text][location])
}

pub(crate) fn why(basis: Basis, state: &[u16], x: u8, y: u8) -> u64 {
    let (reading, file, marks) = basis.parts();
    call!(groovepawn_why[reading][file, marks, state][x, y])
}

/// What the reasons of a run work in.
pub(crate) struct WhyWork {
    pub ticks: Vec<u32>,
    pub rests: Vec<u32>,
    pub prepared: Vec<u8>,
    pub work: Work,
}

pub(crate) fn why_run(
    basis: Basis,
    state: &mut [u16],
    events: &[u8],
    reasons: &mut [u64],
    room: &mut WhyWork,
) -> u64 {
    let (reading, file, marks) = basis.parts();
    let (ticks, rests) = (&mut room.ticks[..], &mut room.rests[..]);
    let prepared = &mut room.prepared[..];
    let [one, two, three, four, five] = room.work.each_mut().map(Vec::as_mut_slice);
    call!(groovepawn_why_run[reading]
        [file, marks, state, events, reasons, ticks, rests, prepared, one, two, three, four, five][])
}
