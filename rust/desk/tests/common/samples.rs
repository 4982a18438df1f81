//! The sample policies of the scope, and one of a station.

/// Not A with B, not B with R.
pub const S: &[u8] = &[
    2, b'A', b'B', 1, b'R', 0, 1, 0, 0, 3, //
    0, 3, 3, 0, 0, 0, 255, //
    0, 2, 2, 1, 1, 0, 255, //
    0, 0, 0, 0, 0, 0, 0,
];

/// After R, C at latest on the fourth tick.
pub const D: &[u8] = &[
    1, b'R', 1, b'C', 1, 0, 3, 2, 0, 0, 0, 4, //
    0, 1, 1, 0, 0, 1, 1, 0, 0, 255, 255, //
    0, 0, 0, 0, 0, 1, 0, 0, 0, 255, 255, //
    1, 0, 0, 1, 1, 1, 0, 0, 0, 255, 255, //
    1, 0, 0, 1, 0, 0, 1, 0, 0, 0, 2,
];

/// After A there is no way on.
pub const T: &[u8] = &[
    1, b'A', 1, b'B', 0, 2, 0, 0, 0, 2, //
    0, 1, 1, 0, 0, 0, 1, //
    0, 0, 0, 0, 0, 0, 0,
];

/// Credit K only while the clock is at most 2.
pub const K: &[u8] = &[
    0, 1, b'K', 1, 0, 3, 1, 0, 0, 2, //
    0, 0, 0, 1, 1, 0, 255, 0, 3, 255, 255, //
    0, 0, 0, 0, 0, 0, 0, 0, 0, 255, 255,
];

/// It permits nothing.
pub const N: &[u8] = &[0, 0, 0, 1, 0, 0, 0];

/// Location 1 cannot be entered, and rules 1 and 2 never decide.
pub const DOORS: &[u8] = &[
    1, b'A', 1, b'R', 0, 3, 0, 0, 1, 0, 5, //
    0, 0, 0, 0, 0, 0, 2, //
    0, 1, 1, 0, 0, 0, 1, //
    1, 0, 0, 0, 0, 0, 0, //
    2, 0, 0, 1, 1, 0, 255, //
    2, 0, 0, 0, 0, 0, 0,
];

/// A policy of 1,002 states over one input and one output that forbids V from the
/// tenth tick after a C on, and asks nothing else.
pub const THOUSAND: &[u8] = &[
    1, b'C', 1, b'V', 1, 3, 233, 1, 0, 0, 3, //
    0, 1, 1, 0, 0, 1, 0, 0, 0, 255, 255, //
    0, 0, 0, 1, 1, 0, 255, 0, 9, 255, 255, //
    0, 0, 0, 0, 0, 0, 0, 0, 0, 255, 255,
];
