//! Which parts of an outcome a record has, by the kind of its call.

/// Both prepares, run, join, both functions of waves, clean, and the reader and
/// the writer of texts.
pub fn writes_bytes(kind: usize) -> bool {
    [0, 3, 4, 6, 7, 17, 18, 22, 23].contains(&kind)
}

/// Clean.
pub fn writes_list(kind: usize) -> bool {
    kind == 18
}

/// Output, both runs, index, the output half with an index, of the bays the list and
/// the output half, and of the meter the station and the output half.
pub fn writes_state(kind: usize) -> bool {
    [2, 3, 8, 10, 11, 13, 14, 16, 21].contains(&kind)
}

/// Those of the meter that are lent them.
pub fn writes_totals(kind: usize) -> bool {
    [14, 16].contains(&kind)
}

/// The run that is explained.
pub fn writes_reasons(kind: usize) -> bool {
    kind == 21
}
