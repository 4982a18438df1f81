//! The join, spoilt.

use super::{Fault, Spoilt};
use crate::engine::{Engine, Model};
use crate::parse;

pub fn join(spoilt: &Spoilt, a: &[u8], b: &[u8], out: &mut [u8]) -> u64 {
    if spoilt.has(Fault::JoinKeepsOrderOfB) {
        return Model.join(b, a, out);
    }
    let answer = Model.join(a, b, out);
    if spoilt.has(Fault::JoinForgetsB) && answer as u8 == 0 && a.len() <= out.len() {
        out[..a.len()].copy_from_slice(a);
        return (a.len() as u64) << 8;
    }
    if spoilt.has(Fault::JoinRestsWhereOneRests) && answer as u8 == 0 {
        rest_where_one_rests(a, b, out);
    }
    if spoilt.has(Fault::JoinOutWrittenOnRefusal) && answer as u8 == 14 && !out.is_empty() {
        out[0] = a[0];
    }
    answer
}

/// Makes the location bytes of a join 1 only where both parts have 1.
fn rest_where_one_rests(a: &[u8], b: &[u8], out: &mut [u8]) {
    let part = |file| parse::check(file).expect("it was joined");
    let (a, b) = (part(a), part(b));
    let clocks = a.ceilings.len() + b.ceilings.len();
    let first = 4 + a.inputs.len() + a.outputs.len() + 2 * clocks;
    for (number, byte) in out[first..first + a.locations() * b.locations()]
        .iter_mut()
        .enumerate()
    {
        let (of_a, of_b) = (number / b.locations(), number % b.locations());
        *byte = u8::from(a.must_leave[of_a] && b.must_leave[of_b]);
    }
}
