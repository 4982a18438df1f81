//! The enforcement library through its C functions. Everything is lent with
//! a guard before and after it, and afterwards all is looked at that the
//! function had no business to change.

use crate::basis::Basis;
use crate::call::Work;
use crate::engine::Engine;
use crate::groovepawn::*;
use crate::index::Indexed;
use crate::meter;
use crate::text::Sought;
use crate::why::Told;

const GUARD: usize = 16;

/// What slices are made of, with what stands in a guard.
trait Cell: Copy + PartialEq {
    const GUARD: Self;
}

impl Cell for u8 {
    const GUARD: u8 = 0xA5;
}

impl Cell for u16 {
    const GUARD: u16 = 0xA5A5;
}

impl Cell for u32 {
    const GUARD: u32 = 0xA5A5_A5A5;
}

impl Cell for u64 {
    const GUARD: u64 = 0xA5A5_A5A5_A5A5_A5A5;
}

/// A slice lent for reading or for writing.
trait Slice {
    type Cell: Cell;

    fn cells(&self) -> &[Self::Cell];

    /// Takes the later contents; whether they may be so.
    fn accept(self, later: &[Self::Cell]) -> bool;
}

impl<T: Cell> Slice for &[T] {
    type Cell = T;

    fn cells(&self) -> &[T] {
        self
    }

    fn accept(self, later: &[T]) -> bool {
        self == later
    }
}

impl<T: Cell> Slice for &mut [T] {
    type Cell = T;

    fn cells(&self) -> &[T] {
        self
    }

    fn accept(self, later: &[T]) -> bool {
        self.copy_from_slice(later);
        true
    }
}

/// A slice, and a copy of it between two guards, which is what is lent.
struct Lent<S: Slice> {
    slice: S,
    copy: Vec<S::Cell>,
}

impl<S: Slice> Lent<S> {
    fn new(slice: S) -> Lent<S> {
        let guard = [S::Cell::GUARD; GUARD];
        let copy = [&guard, slice.cells(), &guard].concat();
        Lent { slice, copy }
    }

    fn pointer(&mut self) -> *mut S::Cell {
        self.copy[GUARD..].as_mut_ptr()
    }

    fn length(&self) -> usize {
        self.slice.cells().len()
    }

    /// Hands the contents back; whether nothing was changed that was not lent
    /// for writing.
    fn give_back(self) -> bool {
        let (before, rest) = self.copy.split_at(GUARD);
        let (later, after) = rest.split_at(self.length());
        let mut guards = before.iter().chain(after);
        let hold = guards.all(|&cell| cell == S::Cell::GUARD);
        self.slice.accept(later) && hold
    }
}

/// Calls a function with what comes before the slices, the slices, each as a
/// pointer and a length, and what comes after them.
macro_rules! ask {
    ($library:ident.$function:ident[$($first:expr),*][$($slice:ident),*][$($last:expr),*]) => {{
        $(let mut $slice = Lent::new($slice);)*
        // Each pointer is to the beginning of as many cells as the length
        // beside it says, and all of them outlive the call.
        let answer = unsafe {
            $function($($first,)* $($slice.pointer(), $slice.length(),)* $($last,)*)
        };
        $($library.strayed |= !$slice.give_back();)*
        u64::from(answer)
    }};
}

#[derive(Default)]
pub struct Library {
    strayed: bool,
}

impl Engine for Library {
    fn prepare(&mut self, reading: u8, file: &[u8], marks: &mut [u8]) -> u64 {
        ask!(self.groovepawn_prepare[reading][file, marks][])
    }

    fn input(&mut self, basis: Basis, state: &[u16], x: u8) -> u64 {
        let (reading, file, marks) = basis.parts();
        ask!(self.groovepawn_input[reading][file, marks, state][x])
    }

    fn output(&mut self, basis: Basis, state: &mut [u16], x: u8, y: u8) -> u64 {
        let (reading, file, marks) = basis.parts();
        ask!(self.groovepawn_output[reading][file, marks, state][x, y])
    }

    fn run(&mut self, basis: Basis, state: &mut [u16], events: &[u8], released: &mut [u8]) -> u64 {
        let (reading, file, marks) = basis.parts();
        ask!(self.groovepawn_run[reading][file, marks, state, events, released][])
    }

    fn join(&mut self, a: &[u8], b: &[u8], out: &mut [u8]) -> u64 {
        ask!(self.groovepawn_join[][a, b, out][])
    }

    fn ticks(&mut self, milliseconds: u32, tick_length: u32, up: u8) -> u64 {
        ask!(self.groovepawn_ticks[milliseconds, tick_length, up][][])
    }

    fn wave_write(&mut self, file: &[u8], events: &[u8], text: &mut [u8]) -> u64 {
        ask!(self.groovepawn_wave_write[][file, events, text][])
    }

    fn wave_read(&mut self, file: &[u8], text: &[u8], events: &mut [u8]) -> u64 {
        ask!(self.groovepawn_wave_read[][file, text, events][])
    }

    fn index(&mut self, file: &[u8], index: &mut [u16]) -> u64 {
        ask!(self.groovepawn_index[][file, index][])
    }

    fn input_indexed(&mut self, (basis, index): Indexed, state: &[u16], x: u8) -> u64 {
        let (reading, file, marks) = basis.parts();
        ask!(self.groovepawn_input_indexed[reading][file, index, marks, state][x])
    }

    fn output_indexed(&mut self, indexed: Indexed, state: &mut [u16], x: u8, y: u8) -> u64 {
        let (basis, index) = indexed;
        let (reading, file, marks) = basis.parts();
        ask!(self.groovepawn_output_indexed[reading][file, index, marks, state][x, y])
    }

    fn bays_new(&mut self, states: &mut [u16]) -> u64 {
        ask!(self.groovepawn_bays_new[][states][])
    }

    fn bay_input(&mut self, basis: Basis, states: &[u16], bay: u32, x: u8) -> u64 {
        let (reading, file, marks) = basis.parts();
        ask!(self.groovepawn_bay_input[reading][file, marks, states][bay, x])
    }

    fn bay_output(&mut self, basis: Basis, states: &mut [u16], bay: u32, x: u8, y: u8) -> u64 {
        let (reading, file, marks) = basis.parts();
        ask!(self.groovepawn_bay_output[reading][file, marks, states][bay, x, y])
    }

    fn meter_new(&mut self, station: &mut [u16], totals: &mut [u32], register: u16) -> u64 {
        ask!(self.groovepawn_meter_new[][station, totals][register])
    }

    fn meter_input(&mut self, basis: Basis, station: &[u16], register: u16, x: u8) -> u64 {
        let (reading, file, marks) = basis.parts();
        ask!(self.groovepawn_meter_input[reading][file, marks, station][register, x])
    }

    fn meter_output(
        &mut self,
        basis: Basis,
        lent: meter::Lent,
        register: u16,
        x: u8,
        y: u8,
    ) -> u64 {
        let (reading, file, marks) = basis.parts();
        let (station, totals) = lent;
        ask!(self.groovepawn_meter_output[reading][file, marks, station, totals][register, x, y])
    }

    fn prepare_fast(&mut self, reading: u8, file: &[u8], marks: &mut [u8], work: &mut Work) -> u64 {
        let [a, b, c, d, e] = work.each_mut().map(Vec::as_mut_slice);
        ask!(self.groovepawn_prepare_fast[reading][file, marks, a, b, c, d, e][])
    }

    fn clean(&mut self, reading: u8, file: &[u8], cleaned: &mut [u8], struck: &mut [u8]) -> u64 {
        ask!(self.groovepawn_clean[reading][file, cleaned, struck][])
    }

    fn why(&mut self, basis: Basis, state: &[u16], x: u8, y: u8) -> u64 {
        let (reading, file, marks) = basis.parts();
        ask!(self.groovepawn_why[reading][file, marks, state][x, y])
    }

    fn check(&mut self, file: &[u8]) -> u64 {
        ask!(self.groovepawn_check[][file][])
    }

    fn why_run(&mut self, basis: Basis, state: &mut [u16], events: &[u8], told: Told) -> u64 {
        let (reading, file, marks) = basis.parts();
        let Told {
            reasons,
            ticks,
            rests,
            prepared,
            work,
        } = told;
        let [a, b, c, d, e] = work.each_mut().map(Vec::as_mut_slice);
        ask!(self.groovepawn_why_run[reading]
            [file, marks, state, events, reasons, ticks, rests, prepared, a, b, c, d, e][])
    }

    fn text_read(&mut self, text: &[u8], file: &mut [u8]) -> u64 {
        ask!(self.groovepawn_text_read[][text, file][])
    }

    fn text_write(&mut self, file: &[u8], text: &mut [u8]) -> u64 {
        ask!(self.groovepawn_text_write[][file, text][])
    }

    fn text_place(&mut self, sought: Sought, text: &[u8], number: u32) -> u64 {
        match sought {
            Sought::LineOfRule => ask!(self.groovepawn_text_line_of_rule[][text][number]),
            Sought::NameOfSignal => ask!(self.groovepawn_text_name_of_signal[][text][number]),
            Sought::NameOfClock => ask!(self.groovepawn_text_name_of_clock[][text][number]),
            Sought::NameOfLocation => ask!(self.groovepawn_text_name_of_location[][text][number]),
        }
    }

    fn strayed(&mut self) -> bool {
        std::mem::take(&mut self.strayed)
    }
}
