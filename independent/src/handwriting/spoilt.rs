//! Faults in the words and lines of a text.

use super::named::any_name;
use super::{line, Line};
use crate::policy::{MAX_CEILING, MAX_CLOCKS, MAX_LOCATIONS, MAX_RULES, MAX_SIGNALS};
use crate::random::Random;
use crate::text::{is_name, KEYWORDS, LONGEST_NAME};

type Spoiling = fn(&mut Random, &mut Vec<Line>);

const SPOILINGS: [Spoiling; 22] = [
    swap_words,
    drop_word,
    double_word,
    keyword_for_word,
    other_word_of_the_text,
    odd_word,
    odd_word_between,
    other_number,
    other_number,
    one_condition_more,
    drop_line,
    double_line,
    swap_lines,
    move_line,
    join_lines,
    split_line,
    glue_words,
    too_many,
    call_all_otherwise,
    call_all_alike,
    lose_the_locations,
    large_ceilings,
];

pub fn spoil(random: &mut Random, lines: &mut Vec<Line>) {
    if lines.iter().all(Vec::is_empty) {
        lines.push(line(["input"]));
    }
    random.pick(&SPOILINGS)(random, lines);
}

/// Words that are wrong nearly everywhere.
const ODD: [&[u8]; 40] = [
    b"!",
    b"!!a",
    b"! a",
    b"->",
    b">=",
    b"<=",
    b"=",
    b"<",
    b">",
    b"-",
    b"==",
    b"=>",
    b"=<",
    b"--",
    b"A",
    b"Z",
    b"AB",
    b"!Z",
    b"a",
    b"z9",
    b"!a",
    b"a!",
    b"1a",
    b"_a",
    b"a-b",
    b"a.b",
    b"Aa",
    b"aA",
    b"!any",
    b"!violation",
    b"\0",
    b"a\0",
    b"\xC3\xA9",
    b"a\xFF",
    b"\x0B",
    b"\x0C",
    b"*",
    b",",
    b"any",
    b"nosuchname",
];

/// Numbers at the limits, too great, and what is much like one.
const NUMBERS: [&[u8]; 34] = [
    b"0",
    b"1",
    b"2",
    b"3",
    b"00",
    b"007",
    b"0001001",
    b"1000",
    b"1001",
    b"1002",
    b"32768",
    b"65534",
    b"65535",
    b"65536",
    b"65537",
    b"65541",
    b"065535",
    b"0065536",
    b"99999",
    b"100000",
    b"131072",
    b"4294967295",
    b"4294967296",
    b"4294967301",
    b"18446744073709551616",
    b"18446744073709551621",
    b"340282366920938463463374607431768211456",
    b"00000000000000000000000000005",
    b"-1",
    b"+1",
    b"1.5",
    b"1,000",
    b"0x10",
    b"1_000",
];

/// A line that has words.
fn some_line(random: &mut Random, lines: &[Line]) -> usize {
    loop {
        let place = random.between(0, lines.len() - 1);
        if !lines[place].is_empty() {
            return place;
        }
    }
}

/// A line that has words, and one of them.
fn some_word(random: &mut Random, lines: &[Line]) -> (usize, usize) {
    let place = some_line(random, lines);
    (place, random.between(0, lines[place].len() - 1))
}

fn swap_words(random: &mut Random, lines: &mut Vec<Line>) {
    let (place, one) = some_word(random, lines);
    let other = random.between(0, lines[place].len() - 1);
    let next = (one + 1) % lines[place].len();
    lines[place].swap(one, random.pick(&[other, next]));
}

fn drop_word(random: &mut Random, lines: &mut Vec<Line>) {
    let (place, word) = some_word(random, lines);
    lines[place].remove(word);
}

fn double_word(random: &mut Random, lines: &mut Vec<Line>) {
    let (place, word) = some_word(random, lines);
    let again = lines[place][word].clone();
    lines[place].insert(word, again);
}

fn keyword_for_word(random: &mut Random, lines: &mut Vec<Line>) {
    let (place, word) = some_word(random, lines);
    lines[place][word] = random.pick(&KEYWORDS).as_bytes().to_vec();
}

/// In the place of a word, or beside it.
fn other_word_of_the_text(random: &mut Random, lines: &mut Vec<Line>) {
    let (from, which) = some_word(random, lines);
    let other = lines[from][which].clone();
    let (place, word) = some_word(random, lines);
    match random.percent(60) {
        true => lines[place][word] = other,
        false => lines[place].insert(word, other),
    }
}

fn some_odd(random: &mut Random) -> Vec<u8> {
    match random.below(30) {
        0 => vec![b'a'; random.pick(&[LONGEST_NAME, LONGEST_NAME + 1, 300, 10_000])],
        // Many words.
        1 => b"A ".repeat(random.pick(&[20, 10_000])),
        2 => vec![b'9'; random.pick(&[20, 10_000])],
        3 => vec![random.byte()],
        _ => random.pick(&ODD).to_vec(),
    }
}

fn odd_word(random: &mut Random, lines: &mut Vec<Line>) {
    let (place, word) = some_word(random, lines);
    let odd = some_odd(random);
    match random.percent(20) {
        true => lines[place][word].extend(odd),
        false => lines[place][word] = odd,
    }
}

fn odd_word_between(random: &mut Random, lines: &mut Vec<Line>) {
    let place = some_line(random, lines);
    let word = random.between(0, lines[place].len());
    let odd = some_odd(random);
    lines[place].insert(word, odd);
}

/// The places of the numbers: line and word.
fn numbers(lines: &[Line]) -> Vec<(usize, usize)> {
    let mut places = Vec::new();
    for (place, line) in lines.iter().enumerate() {
        for (word, bytes) in line.iter().enumerate() {
            if bytes.iter().all(u8::is_ascii_digit) {
                places.push((place, word));
            }
        }
    }
    places
}

/// In the place of a number; where there is none, of any word.
fn other_number(random: &mut Random, lines: &mut Vec<Line>) {
    let (place, word) = match &numbers(lines)[..] {
        [] => some_word(random, lines),
        places => random.pick(places),
    };
    let digits = std::str::from_utf8(&lines[place][word]).unwrap_or("0");
    let near: u32 = digits.parse().unwrap_or(0);
    lines[place][word] = match random.below(4) {
        0 => (near + 1).to_string().into_bytes(),
        1 => near.saturating_sub(1).to_string().into_bytes(),
        _ => random.pick(&NUMBERS).to_vec(),
    };
}

/// What is said after this word, in some line.
fn said_after(lines: &[Line], word: &str, after: usize) -> Vec<Vec<u8>> {
    let lines = lines
        .iter()
        .filter(|line| line.first().is_some_and(|first| first == word.as_bytes()));
    lines.filter_map(|line| line.get(after).cloned()).collect()
}

/// The lines that have an arrow.
fn arrows(lines: &[Line]) -> Vec<usize> {
    let has = |&place: &usize| lines[place].iter().any(|word| word == b"->");
    (0..lines.len()).filter(has).collect()
}

/// A rule gets a signal or a bound that it may have already, or a reset.
fn one_condition_more(random: &mut Random, lines: &mut Vec<Line>) {
    let arrows = arrows(lines);
    if arrows.is_empty() {
        return odd_word_between(random, lines);
    }
    let clocks = said_after(lines, "clock", 1);
    let signal = some_signal(random, lines);
    let line = &mut lines[random.pick(&arrows)];
    if clocks.is_empty() || random.percent(30) {
        return put_condition(random, line, vec![signal]);
    }
    let clock = clocks[random.between(0, clocks.len() - 1)].clone();
    match random.below(3) {
        0 => put_reset(line, clock),
        _ => {
            let sign = random.pick(&[&b">="[..], b"<="]).to_vec();
            let number = match random.percent(70) {
                true => random.between(0, 12).to_string().into_bytes(),
                false => random.pick(&NUMBERS).to_vec(),
            };
            put_condition(random, line, vec![clock, sign, number]);
        }
    }
}

/// One that is declared, or X, which may not be; on or off.
fn some_signal(random: &mut Random, lines: &[Line]) -> Vec<u8> {
    let mut names = vec![b"X".to_vec()];
    for word in ["input", "output"] {
        names.extend(said_after(lines, word, 1));
        names.extend(said_after(lines, word, 2));
    }
    let name = &names[random.between(0, names.len() - 1)];
    match random.percent(50) {
        true => name.clone(),
        false => [b"!", &name[..]].concat(),
    }
}

/// At the beginning of a rule, or before its arrow.
fn put_condition(random: &mut Random, line: &mut Line, words: Line) {
    let arrow = line.iter().position(|word| word == b"->").unwrap_or(0);
    let place = random.pick(&[0, arrow]);
    line.splice(place..place, words);
}

fn put_reset(line: &mut Line, clock: Vec<u8>) {
    if !line.iter().any(|word| word == b"reset") {
        line.push(b"reset".to_vec());
    }
    line.push(clock);
}

fn drop_line(random: &mut Random, lines: &mut Vec<Line>) {
    let place = some_line(random, lines);
    lines.remove(place);
}

fn double_line(random: &mut Random, lines: &mut Vec<Line>) {
    let place = some_line(random, lines);
    lines.insert(place, lines[place].clone());
}

fn swap_lines(random: &mut Random, lines: &mut Vec<Line>) {
    let one = some_line(random, lines);
    let (any, next) = (some_line(random, lines), (one + 1) % lines.len());
    let other = random.pick(&[any, next]);
    lines.swap(one, other);
}

fn move_line(random: &mut Random, lines: &mut Vec<Line>) {
    let from = some_line(random, lines);
    let line = lines.remove(from);
    lines.insert(random.between(0, lines.len()), line);
}

fn join_lines(random: &mut Random, lines: &mut Vec<Line>) {
    let place = some_line(random, lines);
    if place + 1 < lines.len() {
        let next = lines.remove(place + 1);
        lines[place].extend(next);
    }
}

fn split_line(random: &mut Random, lines: &mut Vec<Line>) {
    let (place, word) = some_word(random, lines);
    let rest = lines[place].split_off(word);
    lines.insert(place + 1, rest);
}

fn glue_words(random: &mut Random, lines: &mut Vec<Line>) {
    let (place, word) = some_word(random, lines);
    if word + 1 < lines[place].len() {
        let next = lines[place].remove(word + 1);
        lines[place][word].extend(next);
    }
}

/// The place after the last line that begins with this word.
fn end_of(lines: &[Line], word: &str) -> usize {
    let begins = |line: &Line| line.first().is_some_and(|first| first == word.as_bytes());
    lines.iter().rposition(begins).map_or(0, |place| place + 1)
}

/// Letters that no signal has; all, where there is none.
fn free_letters(lines: &[Line]) -> Vec<u8> {
    let taken = [
        said_after(lines, "input", 1),
        said_after(lines, "output", 1),
    ]
    .concat();
    let all: Vec<u8> = (b'A'..=b'Z').collect();
    let free = all.iter().filter(|&&letter| !taken.contains(&vec![letter]));
    match free.clone().next() {
        Some(_) => free.copied().collect(),
        None => all,
    }
}

/// What there can be too many of, by the word that begins its line.
const KINDS: [(&str, usize); 5] = [
    ("input", MAX_SIGNALS),
    ("output", MAX_SIGNALS),
    ("clock", MAX_CLOCKS),
    ("location", MAX_LOCATIONS),
    ("any", MAX_RULES),
];

/// As many more of a kind as there is room for, one more than that, or many more.
fn too_many(random: &mut Random, lines: &mut Vec<Line>) {
    let (kind, most) = random.pick(&KINDS);
    let count = most + random.pick(&[0, 1, 1, 2, 200]);
    let (place, there) = match kind {
        "any" => (lines.len(), arrows(lines).len()),
        _ => (end_of(lines, kind), said_after(lines, kind, 1).len()),
    };
    let more: Vec<Line> = (there..count)
        .map(|number| one_more(lines, kind, number))
        .collect();
    let last = place + more.len();
    lines.splice(place..place, more);
    if last > 0 && random.percent(30) {
        // The line that is too much is wrong in another way too.
        let odd = some_odd(random);
        lines[last - 1].push(odd);
    }
}

fn one_more(lines: &[Line], kind: &str, number: usize) -> Line {
    let name = format!("more_{number}");
    match kind {
        "clock" => line([kind, &name, "1"]),
        "location" => line([kind, &name]),
        "any" => {
            let target = said_after(lines, "location", 1).pop();
            [line(["any", "->"]), vec![target.unwrap_or_default()]].concat()
        }
        _ => {
            let letters = free_letters(lines);
            let letter = letters[number % letters.len()];
            vec![kind.as_bytes().to_vec(), vec![letter]]
        }
    }
}

/// A name that the text has; none where it has none.
fn some_name(random: &mut Random, lines: &[Line]) -> Option<Vec<u8>> {
    let names: Vec<&Vec<u8>> = lines
        .iter()
        .flatten()
        .filter(|word| is_name(word))
        .collect();
    match names.is_empty() {
        true => None,
        false => Some(random.pick(&names).clone()),
    }
}

/// A name becomes another one wherever it stands.
fn rename(lines: &mut [Line], old: &[u8], new: &[u8]) {
    for word in lines.iter_mut().flatten() {
        match word.strip_prefix(b"!") {
            Some(rest) if rest == old => *word = [b"!", new].concat(),
            _ if word == old => *word = new.to_vec(),
            _ => {}
        }
    }
}

/// A name that is too long, is no name, or just fits.
fn call_all_otherwise(random: &mut Random, lines: &mut Vec<Line>) {
    let Some(old) = some_name(random, lines) else {
        return odd_word(random, lines);
    };
    let new = match random.below(6) {
        0 => vec![b'n'; LONGEST_NAME],
        1 | 2 => vec![b'n'; LONGEST_NAME + random.between(1, 3)],
        3 => random.pick(&KEYWORDS).as_bytes().to_vec(),
        4 => any_name(random).into_bytes(),
        _ => some_odd(random),
    };
    rename(lines, &old, &new);
}

/// Two names become one, which may be taken then.
fn call_all_alike(random: &mut Random, lines: &mut Vec<Line>) {
    let (one, other) = (some_name(random, lines), some_name(random, lines));
    if let (Some(one), Some(other)) = (one, other) {
        rename(lines, &one, &other);
    }
}

/// Without what comes from the first location on, or without the locations.
fn lose_the_locations(random: &mut Random, lines: &mut Vec<Line>) {
    let first =
        |line: &Line, word: &str| line.first().is_some_and(|first| first == word.as_bytes());
    if random.percent(30) {
        lines.retain(|line| !first(line, "location"));
        return;
    }
    let place = lines.iter().position(|line| first(line, "location"));
    lines.truncate(place.unwrap_or(lines.len()));
    if random.percent(30) {
        let from = random.between(0, lines.len());
        lines.truncate(from);
    }
}

/// So large that there may be too many states, with or without the rules.
fn large_ceilings(random: &mut Random, lines: &mut Vec<Line>) {
    for line in lines.iter_mut() {
        let clock = line.first().is_some_and(|first| first == b"clock");
        if clock && line.len() == 3 {
            line[2] = random
                .between(200, usize::from(MAX_CEILING))
                .to_string()
                .into_bytes();
        }
    }
    if random.percent(50) {
        let place = end_of(lines, "clock");
        if said_after(lines, "clock", 1).len() + 2 <= MAX_CLOCKS {
            lines.insert(place, line(["clock", "large_1", "1001"]));
            lines.insert(place, line(["clock", "large_2", "700"]));
        }
    }
}
