//! Policies as texts, as the page `docs/POLICY-TEXT.md` describes them: read,
//! written, and asked where in a text something stands.

mod names;
mod places;
mod reader;
mod rule;
#[cfg(test)]
mod tests;
pub mod words;
mod writer;

use crate::parse;
use crate::refusal::Refusal;
pub use names::{is_name, KEYWORDS, LONGEST_NAME};
pub use places::{place, Sought};
pub use reader::read_policy;
pub use writer::text_of;

/// Why a text gives no file, and the line where it fails, counted from 1; 0
/// where no line is to blame.
#[derive(Clone, Copy, Debug, PartialEq, Eq)]
pub struct Failure {
    pub refusal: Refusal,
    pub line: usize,
}

impl Failure {
    pub fn of_no_line(refusal: Refusal) -> Failure {
        Failure { refusal, line: 0 }
    }
}

/// Writes the file of a text and returns its length.
pub fn read(text: &[u8], file: &mut [u8]) -> Result<usize, Failure> {
    let bytes = read_policy(text)?.policy.encode();
    put(&bytes, file).map_err(Failure::of_no_line)
}

/// Writes the text of a file and returns its length.
pub fn write(file: &[u8], text: &mut [u8]) -> Result<usize, Refusal> {
    let policy = parse::check(file)?;
    put(text_of(&policy).as_bytes(), text)
}

/// At the beginning of a slice, if there is room for all of it.
fn put(bytes: &[u8], slice: &mut [u8]) -> Result<usize, Refusal> {
    let room = slice.get_mut(..bytes.len());
    room.ok_or(Refusal::SliceTooShort)?.copy_from_slice(bytes);
    Ok(bytes.len())
}
