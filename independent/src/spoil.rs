//! Texts of waves with something wrong in them. By chance one may come out as
//! the text of another stream.

use crate::random::Random;
use crate::waves::MOST_EVENTS;

type Lines = Vec<Vec<u8>>;
type Spoiling = fn(&mut Random, &mut Lines);

const SPOILINGS: [Spoiling; 14] = [
    drop_line,
    double_line,
    exchange_lines,
    exchange_neighbours,
    leading_zero,
    time_without_change,
    write_again,
    other_value,
    other_time,
    other_tag,
    time_above,
    carriage_returns,
    change_byte,
    blank,
];

/// A text with one thing wrong, seldom two.
pub fn spoilt(random: &mut Random, text: &[u8]) -> Vec<u8> {
    let mut text = spoilt_once(random, text);
    if random.percent(15) {
        text = spoilt_once(random, &text);
    }
    text
}

fn spoilt_once(random: &mut Random, text: &[u8]) -> Vec<u8> {
    match random.below(10) {
        0 => cut_or_lengthened(random, text),
        _ => {
            let mut lines: Lines = text
                .split_inclusive(|&byte| byte == b'\n')
                .map(<[u8]>::to_vec)
                .collect();
            let spoil = random.pick(&SPOILINGS);
            if !lines.is_empty() {
                spoil(random, &mut lines);
            }
            lines.concat()
        }
    }
}

/// The last line feed missing, cut at any place, or with bytes after the end.
fn cut_or_lengthened(random: &mut Random, text: &[u8]) -> Vec<u8> {
    let mut text = text.to_vec();
    match random.below(6) {
        0 => text.truncate(text.len().saturating_sub(1)),
        1 => text.truncate(random.between(0, text.len())),
        2 => text.push(b'\n'),
        3 => text.push(0),
        4 => text.push(random.byte()),
        _ => text.extend(b"#16384\n"),
    }
    text
}

fn some_place(random: &mut Random, lines: &Lines) -> usize {
    random.between(0, lines.len() - 1)
}

/// One of the last lines, which are times and values and not the header.
fn some_late_place(random: &mut Random, lines: &Lines) -> usize {
    let back = random.between(0, 6.min(lines.len() - 1));
    lines.len() - 1 - back
}

fn drop_line(random: &mut Random, lines: &mut Lines) {
    let place = some_late_place(random, lines);
    lines.remove(random.pick(&[place, lines.len() - 1]));
}

fn double_line(random: &mut Random, lines: &mut Lines) {
    let place = some_place(random, lines);
    lines.insert(place, lines[place].clone());
}

fn exchange_lines(random: &mut Random, lines: &mut Lines) {
    let (one, other) = (some_place(random, lines), some_late_place(random, lines));
    lines.swap(one, other);
}

fn exchange_neighbours(random: &mut Random, lines: &mut Lines) {
    let place = some_place(random, lines);
    lines.swap(place, place.saturating_sub(1));
}

/// The places of the lines that begin with this byte.
fn beginning(lines: &Lines, first: &[u8]) -> Vec<usize> {
    let begins = |&place: &usize| {
        lines[place]
            .first()
            .is_some_and(|byte| first.contains(byte))
    };
    (0..lines.len()).filter(begins).collect()
}

/// A time line; where there is none, any line.
fn some_time(random: &mut Random, lines: &Lines) -> usize {
    match &beginning(lines, b"#")[..] {
        [] => some_place(random, lines),
        times => random.pick(times),
    }
}

/// A value line; where there is none, any line.
fn some_value(random: &mut Random, lines: &Lines) -> usize {
    match &beginning(lines, b"01")[..] {
        [] => some_place(random, lines),
        values => random.pick(values),
    }
}

fn leading_zero(random: &mut Random, lines: &mut Lines) {
    let place = some_time(random, lines);
    lines[place].insert(1, random.pick(b"00+ "));
}

fn time_without_change(random: &mut Random, lines: &mut Lines) {
    let place = some_time(random, lines);
    let time = number_in(&lines[place]);
    let between = match random.below(3) {
        0 => time.saturating_sub(1),
        1 => time,
        _ => time + 1,
    };
    lines.insert(place, time_line(between));
}

/// A signal once more, as it stands or not, at this time or another.
fn write_again(random: &mut Random, lines: &mut Lines) {
    let value = lines[some_value(random, lines)].clone();
    let place = some_late_place(random, lines);
    lines.insert(place, value);
}

fn other_value(random: &mut Random, lines: &mut Lines) {
    let place = some_value(random, lines);
    lines[place][0] = random.pick(b"01xzXZ2");
}

fn some_or_closing_time(random: &mut Random, lines: &Lines) -> usize {
    match random.percent(50) {
        true => some_time(random, lines),
        false => lines.len() - 1,
    }
}

fn other_time(random: &mut Random, lines: &mut Lines) {
    let place = some_or_closing_time(random, lines);
    let time = number_in(&lines[place]);
    let other = match random.below(4) {
        0 => time + 1,
        1 => time.saturating_sub(1),
        2 => random.between(0, 50),
        _ => MOST_EVENTS,
    };
    lines[place] = time_line(other);
}

/// Just above the greatest time, or one that comes out as it was where it is
/// held in too few bits.
fn time_above(random: &mut Random, lines: &mut Lines) {
    let place = some_or_closing_time(random, lines);
    let time = number_in(&lines[place]);
    let above = match random.below(4) {
        0 => MOST_EVENTS + 1,
        1 => MOST_EVENTS + random.between(1, 100),
        2 => time + (1 << 16),
        _ => time + (1 << 32),
    };
    lines[place] = time_line(above);
}

fn number_in(line: &[u8]) -> usize {
    let digits = line.iter().filter(|byte| byte.is_ascii_digit()).take(9);
    digits.fold(0, |number, digit| 10 * number + usize::from(digit - b'0'))
}

fn time_line(time: usize) -> Vec<u8> {
    format!("#{time}\n").into_bytes()
}

/// Changes the letter of a value line, or that of a line of the header.
fn other_tag(random: &mut Random, lines: &mut Lines) {
    let place = match random.percent(50) {
        true => some_value(random, lines),
        false => some_place(random, lines),
    };
    let tag = random.pick(b"ABCRZa");
    if let Some(letter) = lines[place]
        .iter_mut()
        .rfind(|byte| byte.is_ascii_uppercase())
    {
        *letter = tag;
    }
}

/// In one line or in all.
fn carriage_returns(random: &mut Random, lines: &mut Lines) {
    let only = some_place(random, lines);
    let all = random.percent(50);
    for (place, line) in lines.iter_mut().enumerate() {
        if all || place == only {
            line.insert(line.len() - 1, b'\r');
        }
    }
}

fn change_byte(random: &mut Random, lines: &mut Lines) {
    let place = some_place(random, lines);
    let line = &mut lines[place];
    let byte = random.between(0, line.len() - 1);
    line[byte] = match random.percent(50) {
        true => line[byte] ^ 1 << random.below(8),
        false => random.byte(),
    };
}

/// A blank more, or a blank line.
fn blank(random: &mut Random, lines: &mut Lines) {
    let place = some_place(random, lines);
    match random.percent(50) {
        true => lines.insert(place, b"\n".to_vec()),
        false => {
            let line = &mut lines[place];
            let at = random.between(0, line.len() - 1);
            line.insert(at, b' ');
        }
    }
}
