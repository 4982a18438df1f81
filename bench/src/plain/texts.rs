//! Policies as texts, and back.

mod draft;
mod rule;
mod words;
mod writer;

use super::check::count_states;
use super::policy::MAX_STATES;
use super::refusal::Refusal;
use draft::Draft;
use words::Words;
pub use writer::text_write;

/// Writes the file of a text at the beginning of `file` and returns its length;
/// or the refusal and its line, counted from 1, or 0 where it has none. The text
/// is read once, into a draft, and the draft written.
pub fn text_read(text: &[u8], file: &mut [u8]) -> Result<usize, (Refusal, usize)> {
    let mut draft = Draft::new();
    for (number, line) in (1..).zip(text.split(|&byte| byte == b'\n')) {
        draft
            .read(Words::of(line))
            .map_err(|refusal| (refusal, number))?;
    }
    finish(&draft, file).map_err(|refusal| (refusal, 0))
}

fn finish(draft: &Draft, file: &mut [u8]) -> Result<usize, Refusal> {
    if draft.locations.count == 0 {
        return Err(Refusal::CountOutsideLimits);
    }
    if count_states(draft.locations.count, &draft.ceilings) > MAX_STATES {
        return Err(Refusal::TooManyStates);
    }
    draft.write(file)
}
