//! Policies and events with bytes changed, cut, put in or taken out: no panic, and a
//! clear word for each that is refused.

mod common;

use common::random::{events, policy, spoilt, Random};
use common::samples::{D, S};
use common::{desk, desk_reading, Folder};

#[test]
fn spoilt_policies_have_a_word_and_a_place_each() {
    let folder = Folder::new();
    let mut random = Random::new(8);
    let mut refused = 0;
    for _ in 0..100 {
        let paths: Vec<String> = (0..60)
            .map(|number| {
                let file = policy(&mut random);
                folder.file(&format!("policy{number}"), &spoilt(&mut random, &file))
            })
            .collect();
        let words: Vec<&str> = ["check"]
            .into_iter()
            .chain(paths.iter().map(String::as_str))
            .collect();
        let said = desk(&words);
        // What is wrong with a line of a text stands in a line of its own, set in.
        let lines: Vec<&str> = said
            .err
            .lines()
            .filter(|line| !line.starts_with("  "))
            .collect();
        let mut named = 0;
        for path in &paths {
            let start = format!("groovepawn: {path}: ");
            let of_it: Vec<&&str> = lines
                .iter()
                .filter(|line| line.starts_with(&start))
                .collect();
            let told = said.text().contains(&format!("{path}: inputs"));
            assert!(told || of_it.len() == 1, "nothing is said of {path}");
            for line in of_it {
                let place = [
                    "byte ",
                    "under reading",
                    "under both",
                    "make ",
                    "line ",
                    "no location",
                ]
                .iter()
                .any(|place| line.contains(place));
                assert!(place, "{line} has no place");
                named += 1;
            }
        }
        assert_eq!(named, lines.len(), "{}", said.err);
        refused += named;
    }
    assert!(refused > 3_000, "{refused} refused");
}

#[test]
fn spoilt_events_have_a_line_or_a_tick_each() {
    let folder = Folder::new();
    let (s, d) = (folder.file("s", S), folder.file("d", D));
    let mut random = Random::new(9);
    let mut wrong = 0;
    for case in 0..2_000 {
        let text = spoilt(
            &mut random,
            b"A B # first\n- * 20\nR\n\nA R * 3\nB\n# end\n",
        );
        let said = desk_reading(&[["run", "why"][case % 2], &s, "-"], &text);
        if said.status != Some(0) {
            wrong += 1;
            said.bad(1, "line ");
        }
        let stream = events(&mut random, D, 30);
        let said = desk_reading(&["run", "--bytes", &d, "-"], &spoilt(&mut random, &stream));
        if said.status != Some(0) {
            wrong += 1;
            said.bad(1, "refused 15").bad(1, "tick ");
        }
    }
    assert!(wrong > 1_000, "{wrong} wrong");
}
