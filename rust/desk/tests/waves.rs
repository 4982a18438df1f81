//! The wave with all signals, read back by a small reader of its own.

mod common;

use std::collections::HashMap;

use common::random::{events, policy, Random};
use common::{desk_reading, Folder};

/// The values of each wire, tick by tick.
fn read_back(text: &str) -> HashMap<String, Vec<bool>> {
    let mut names = HashMap::new();
    let mut values: HashMap<String, (bool, Vec<bool>)> = HashMap::new();
    let mut time = 0;
    for line in text.lines() {
        if let Some(declared) = line.strip_prefix("$var wire 1 ") {
            let words: Vec<&str> = declared.split(' ').collect();
            assert_eq!(words.len(), 3, "{line}");
            assert!(
                names.insert(words[0], words[1]).is_none(),
                "{} stands for two wires",
                words[0]
            );
            values.insert(words[1].to_string(), (false, Vec::new()));
        } else if let Some(number) = line.strip_prefix('#') {
            let next: usize = number.parse().expect("a time is a number");
            assert!(next > time || next == 0, "times rise");
            for (value, ticks) in values.values_mut() {
                ticks.resize(next, *value);
            }
            time = next;
        } else if !line.starts_with('$') {
            let (value, mark) = line.split_at(1);
            let name = names[mark];
            values.get_mut(name).expect("it was declared").0 = value == "1";
        }
    }
    values
        .into_iter()
        .map(|(name, (_, ticks))| (name, ticks))
        .collect()
}

#[test]
fn the_wave_with_all_signals_shows_what_was_read_released_and_edited() {
    let folder = Folder::new();
    let mut random = Random::new(12);
    let mut shown = 0;
    for _ in 0..100 {
        let file = policy(&mut random);
        let stream = events(&mut random, &file, 50);
        let path = folder.file("policy", &file);
        let released = desk_reading(&["run", "--bytes", &path, "-"], &stream);
        if released.status != Some(0) {
            continue;
        }
        shown += 1;
        let wave = desk_reading(
            &["wave", "--all", "--bytes", &path, "-", "-o", "-"],
            &stream,
        )
        .good();
        let wires = read_back(wave.text());
        let inputs = file[1..].iter().take(usize::from(file[0])).zip(0..);
        let outputs_at = 2 + usize::from(file[0]);
        let outputs = file[outputs_at..]
            .iter()
            .take(usize::from(file[outputs_at - 1]))
            .zip(4..);
        let bits = |events: &[u8], bit: usize| -> Vec<bool> {
            events.iter().map(|event| event >> bit & 1 == 1).collect()
        };
        for (&tag, bit) in inputs.chain(outputs) {
            let tag = char::from(tag);
            assert_eq!(wires[&tag.to_string()], bits(&released.out, bit));
            assert_eq!(wires[&format!("{tag}_read")], bits(&stream, bit));
        }
        for (name, half) in [("input_edited", 0x0f), ("output_edited", 0xf0)] {
            let edited: Vec<bool> = stream
                .iter()
                .zip(&released.out)
                .map(|(read, put)| (read ^ put) & half != 0)
                .collect();
            assert_eq!(wires[name], edited);
        }
    }
    assert!(shown > 30, "{shown} shown");
}
