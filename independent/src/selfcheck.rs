//! Puts the calls written by hand to an engine.

use crate::engine::Engine;
use crate::written;

/// How many there are, and each that came out otherwise, in words.
pub fn selfcheck(engine: &mut dyn Engine) -> (usize, Vec<String>) {
    let all = written::all();
    let mut failures = Vec::new();
    for written in &all {
        let found = written.call.make(engine);
        if found != written.expected {
            let (name, call, expected) = (&written.name, &written.call, &written.expected);
            failures.push(format!("{name}\n{call}by hand:\n{expected}found:\n{found}"));
        }
    }
    (all.len(), failures)
}

#[cfg(test)]
mod tests {
    use super::*;
    use crate::engine::Model;

    #[test]
    fn the_model_gives_what_was_written_by_hand() {
        let (count, failures) = selfcheck(&mut Model);
        assert!(count > 150, "only {count}");
        assert!(failures.is_empty(), "{}", failures.join("\n"));
    }
}
