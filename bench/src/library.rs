//! The enforcement library through its C functions, on the very slices it is
//! lent: nothing is copied, so that only its own work is measured.

use crate::basis::Basis;
use crate::engine::Engine;
use crate::groovepawn::*;

/// A slice lent for reading or for writing.
trait Lent {
    type Cell;

    fn pointer(&mut self) -> *mut Self::Cell;
    fn length(&self) -> usize;
}

impl<T> Lent for &[T] {
    type Cell = T;

    fn pointer(&mut self) -> *mut T {
        self.as_ptr().cast_mut()
    }

    fn length(&self) -> usize {
        self.len()
    }
}

impl<T> Lent for &mut [T] {
    type Cell = T;

    fn pointer(&mut self) -> *mut T {
        self.as_mut_ptr()
    }

    fn length(&self) -> usize {
        self.len()
    }
}

/// Calls a function with what comes before the slices, the slices, each as a
/// pointer and a length, and what comes after them.
macro_rules! ask {
    ($function:ident[$($first:expr),*][$($slice:ident),*][$($last:expr),*]) => {{
        $(let mut $slice = $slice;)*
        // Each pointer and the length beside it are those of one slice, which
        // outlives the call, and the function writes through those alone that
        // it takes as `*mut`.
        let answer = unsafe {
            $function($($first,)* $($slice.pointer(), $slice.length(),)* $($last,)*)
        };
        u64::from(answer)
    }};
}

pub struct Library;

impl Engine for Library {
    fn prepare(&self, reading: u8, file: &[u8], marks: &mut [u8]) -> u64 {
        ask!(groovepawn_prepare[reading][file, marks][])
    }

    fn input(&self, basis: Basis, state: &[u16], x: u8) -> u64 {
        let (reading, file, marks) = basis.parts();
        ask!(groovepawn_input[reading][file, marks, state][x])
    }

    fn output(&self, basis: Basis, state: &mut [u16], x: u8, y: u8) -> u64 {
        let (reading, file, marks) = basis.parts();
        ask!(groovepawn_output[reading][file, marks, state][x, y])
    }

    fn run(&self, basis: Basis, state: &mut [u16], events: &[u8], released: &mut [u8]) -> u64 {
        let (reading, file, marks) = basis.parts();
        ask!(groovepawn_run[reading][file, marks, state, events, released][])
    }

    fn join(&self, a: &[u8], b: &[u8], out: &mut [u8]) -> u64 {
        ask!(groovepawn_join[][a, b, out][])
    }

    fn wave_write(&self, file: &[u8], events: &[u8], text: &mut [u8]) -> u64 {
        ask!(groovepawn_wave_write[][file, events, text][])
    }

    fn wave_read(&self, file: &[u8], text: &[u8], events: &mut [u8]) -> u64 {
        ask!(groovepawn_wave_read[][file, text, events][])
    }

    fn text_read(&self, text: &[u8], file: &mut [u8]) -> u64 {
        ask!(groovepawn_text_read[][text, file][])
    }

    fn text_write(&self, file: &[u8], text: &mut [u8]) -> u64 {
        ask!(groovepawn_text_write[][file, text][])
    }
}

/// The second engine of prepare.
pub fn prepare_fast(reading: u8, file: &[u8], marks: &mut [u8], work: &mut [Vec<u16>; 5]) -> u64 {
    let [stack, from, ways, bound, place] = work.each_mut().map(Vec::as_mut_slice);
    ask!(groovepawn_prepare_fast[reading][file, marks, stack, from, ways, bound, place][])
}

pub fn clean(reading: u8, file: &[u8], cleaned: &mut [u8], struck: &mut [u8]) -> u64 {
    ask!(groovepawn_clean[reading][file, cleaned, struck][])
}

/// Why the halves of an event are edited.
pub fn why(reading: u8, file: &[u8], marks: &[u8], state: &[u16], x: u8, y: u8) -> u64 {
    ask!(groovepawn_why[reading][file, marks, state][x, y])
}

pub fn index(file: &[u8], index: &mut [u16]) -> u64 {
    ask!(groovepawn_index[][file, index][])
}

pub fn input_indexed(basis: Basis, index: &[u16], state: &[u16], x: u8) -> u64 {
    let (reading, file, marks) = basis.parts();
    ask!(groovepawn_input_indexed[reading][file, index, marks, state][x])
}

pub fn output_indexed(basis: Basis, index: &[u16], state: &mut [u16], x: u8, y: u8) -> u64 {
    let (reading, file, marks) = basis.parts();
    ask!(groovepawn_output_indexed[reading][file, index, marks, state][x, y])
}

/// What reasons for a run work in.
pub struct Room {
    ticks: Vec<u32>,
    rests: Vec<u32>,
    prepared: Vec<u8>,
    work: [Vec<u16>; 5],
}

impl Room {
    pub fn new(states: usize) -> Room {
        Room {
            ticks: vec![0; states],
            rests: vec![0; states],
            prepared: vec![0; states],
            work: [0; 5].map(|_: u8| vec![0; states]),
        }
    }
}

/// Why the halves of each event of a run are edited.
pub fn why_run(
    basis: Basis,
    state: &mut [u16],
    events: &[u8],
    reasons: &mut [u64],
    room: &mut Room,
) -> u64 {
    let (reading, file, marks) = basis.parts();
    let (ticks, rests) = (&mut room.ticks[..], &mut room.rests[..]);
    let prepared = &mut room.prepared[..];
    let [a, b, c, d, e] = room.work.each_mut().map(Vec::as_mut_slice);
    ask!(groovepawn_why_run[reading]
        [file, marks, state, events, reasons, ticks, rests, prepared, a, b, c, d, e][])
}
