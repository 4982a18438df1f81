//! What the halves and the run go by. The benchmark shares this file.

/// A policy's file, the reading of its deadlines and the marks.
#[derive(Clone, Copy, Debug, Default)]
pub struct Basis<'a> {
    pub reading: u8,
    pub file: &'a [u8],
    pub marks: &'a [u8],
}

impl<'a> Basis<'a> {
    pub fn new(reading: u8, file: &'a [u8], marks: &'a [u8]) -> Basis<'a> {
        Basis {
            reading,
            file,
            marks,
        }
    }

    pub fn parts(self) -> (u8, &'a [u8], &'a [u8]) {
        (self.reading, self.file, self.marks)
    }
}
