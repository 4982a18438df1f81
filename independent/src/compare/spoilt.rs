//! Calls the model, and spoils one thing before or after. A comparison that
//! does not notice is worth nothing.

mod bays;
mod clean;
mod engines;
mod faults;
mod halves;
mod indexes;
mod joins;
mod meter;
mod seen;
mod texts;
mod waves;
mod why;

use crate::basis::Basis;
use crate::call::Work;
use crate::engine::{Engine, Model};
use crate::index::Indexed;
use crate::meter::Lent;
use crate::text::Sought;
use crate::why::Told;
pub use faults::{Fault, FAULTS};

pub struct Spoilt {
    pub fault: Fault,
}

impl Spoilt {
    fn has(&self, fault: Fault) -> bool {
        self.fault == fault
    }
}

/// Hands a question on to its topic.
macro_rules! asks {
    ($($topic:ident::$function:ident($($given:ident: $kind:ty),*);)+) => {
        $(fn $function(&mut self, $($given: $kind),*) -> u64 {
            $topic::$function(self, $($given),*)
        })+
    };
}

impl Engine for Spoilt {
    asks! {
        engines::check(file: &[u8]);
        engines::prepare(reading: u8, file: &[u8], marks: &mut [u8]);
        engines::prepare_fast(reading: u8, file: &[u8], marks: &mut [u8], work: &mut Work);
        halves::input(basis: Basis, state: &[u16], x: u8);
        halves::output(basis: Basis, state: &mut [u16], x: u8, y: u8);
        halves::run(basis: Basis, state: &mut [u16], events: &[u8], released: &mut [u8]);
        joins::join(a: &[u8], b: &[u8], out: &mut [u8]);
        waves::wave_write(file: &[u8], events: &[u8], text: &mut [u8]);
        waves::wave_read(file: &[u8], text: &[u8], events: &mut [u8]);
        indexes::index(file: &[u8], index: &mut [u16]);
        indexes::input_indexed(indexed: Indexed, state: &[u16], x: u8);
        indexes::output_indexed(indexed: Indexed, state: &mut [u16], x: u8, y: u8);
        bays::bays_new(states: &mut [u16]);
        bays::bay_input(basis: Basis, states: &[u16], bay: u32, x: u8);
        bays::bay_output(basis: Basis, states: &mut [u16], bay: u32, x: u8, y: u8);
        meter::meter_new(station: &mut [u16], totals: &mut [u32], register: u16);
        meter::meter_input(basis: Basis, station: &[u16], register: u16, x: u8);
        meter::meter_output(basis: Basis, lent: Lent, register: u16, x: u8, y: u8);
        clean::clean(reading: u8, file: &[u8], cleaned: &mut [u8], struck: &mut [u8]);
        why::why(basis: Basis, state: &[u16], x: u8, y: u8);
        why::why_run(basis: Basis, state: &mut [u16], events: &[u8], told: Told);
        texts::text_read(text: &[u8], file: &mut [u8]);
        texts::text_write(file: &[u8], text: &mut [u8]);
        texts::text_place(sought: Sought, text: &[u8], number: u32);
    }

    fn ticks(&mut self, milliseconds: u32, tick_length: u32, up: u8) -> u64 {
        match self.has(Fault::RoundUpOneTooMany) && up != 0 && tick_length != 0 {
            true => u64::from(milliseconds / tick_length + 1) << 8,
            false => Model.ticks(milliseconds, tick_length, up),
        }
    }

    fn strayed(&mut self) -> bool {
        self.has(Fault::Stray)
    }
}
