//! Words put on paper.

use super::Line;
use crate::random::Random;
use crate::text::words::SIGNS;

/// How somebody lays out a text.
struct Hand {
    /// In a hundred: blanks where none are needed, comments, empty lines.
    blanks: u64,
    comments: u64,
    empty: u64,
    /// Before the line feed of every line.
    returns: bool,
}

pub fn laid_out(random: &mut Random, lines: &[Line]) -> Vec<u8> {
    let hand = Hand {
        blanks: random.pick(&[0, 10, 60]),
        comments: random.pick(&[0, 5, 40]),
        empty: random.pick(&[0, 10, 40]),
        returns: random.percent(15),
    };
    let mut text = Vec::new();
    if random.percent(1) {
        text.extend(far_down(random));
    }
    for line in lines {
        while random.percent(hand.empty) {
            put_line(random, &hand, &mut text, &vec![]);
        }
        put_line(random, &hand, &mut text, line);
    }
    if random.percent(20) {
        text.pop();
    }
    text
}

/// So many lines that their number takes more than one byte, or two; or one line
/// that is as long, of blanks or of a comment.
fn far_down(random: &mut Random) -> Vec<u8> {
    let length = random.pick(&[254, 255, 256, 300, 1_000, 65_534, 65_536, 70_000]);
    let byte = match random.below(8) {
        0 => b' ',
        1 => b'#',
        _ => b'\n',
    };
    [vec![byte; length], vec![b'\n']].concat()
}

fn put_line(random: &mut Random, hand: &Hand, text: &mut Vec<u8>, line: &Line) {
    put_blanks(random, hand, text);
    let mut before: &[u8] = b"->";
    for word in line {
        let apart = is_sign(before) || is_sign(word);
        if !apart || random.percent(50) {
            text.push(random.pick(b"        \t\r"));
        }
        put_blanks(random, hand, text);
        text.extend(word);
        before = word;
    }
    put_blanks(random, hand, text);
    if random.percent(hand.comments) {
        put_comment(random, text);
    }
    if hand.returns {
        text.push(b'\r');
    }
    text.push(b'\n');
}

fn put_blanks(random: &mut Random, hand: &Hand, text: &mut Vec<u8>) {
    while random.percent(hand.blanks) {
        text.push(random.pick(b"  \t\r"));
    }
}

fn put_comment(random: &mut Random, text: &mut Vec<u8>) {
    text.push(b'#');
    match random.below(3) {
        0 => text.extend(b" stays open at most 5 ticks # -> !A"),
        1 => {}
        _ => {
            let length = random.between(0, 20);
            let bytes = random.bytes(length);
            text.extend(bytes.iter().filter(|&&byte| byte != b'\n'));
        }
    }
}

fn is_sign(word: &[u8]) -> bool {
    SIGNS.contains(&word)
}
