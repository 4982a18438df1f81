//! The sample policies, as the paper writes them.

/// Not A with B, not B with R.
pub const S: &str = "02 41 42 01 52 00 01 00 00 03 \
    00 03 03 00 00 00 FF \
    00 02 02 01 01 00 FF \
    00 00 00 00 00 00 00";

/// After R, C at latest on the fourth tick.
pub const D: &str = "01 52 01 43 01 00 03 02 00 00 00 04 \
    00 01 01 00 00 01 01 00 00 FF FF \
    00 00 00 00 00 01 00 00 00 FF FF \
    01 00 00 01 01 01 00 00 00 FF FF \
    01 00 00 01 00 00 01 00 00 00 02";

pub const T: &str = "01 41 01 42 00 02 00 00 00 02 \
    00 01 01 00 00 00 01 \
    00 00 00 00 00 00 00";

/// Credit K only while the clock is at most 2.
pub const K: &str = "00 01 4B 01 00 03 01 00 00 02 \
    00 00 00 01 01 00 FF 00 03 FF FF \
    00 00 00 00 00 00 00 00 00 FF FF";

pub const N: &str = "00 00 00 01 00 00 00";
