//! Why a half was edited.

use super::halves::OVERFULL;
use super::leaving::UNFINISHED;
use super::*;
use crate::samples::*;

pub fn all() -> Vec<Written> {
    [
        not_edited(),
        outputs(),
        inputs(),
        both(),
        by_reading(),
        refused(),
        in_order(),
    ]
    .concat()
}

/// A kind and a number.
type Reason = (u64, u64);
const NOT_EDITED: Reason = (0, 0);
const NO_RULE: Reason = (2, 0);

fn rule(number: u64) -> Reason {
    (1, number)
}

fn ticks(number: u64) -> Reason {
    (3, number)
}

fn rests(number: u64) -> Reason {
    (4, number)
}

/// A policy, its marks and a state.
#[derive(Clone, Copy)]
struct At<'a> {
    file: &'a str,
    marks: &'a [u8],
    state: &'a [u16],
}

fn asked(name: &str, at: At, (x, y): (u8, u8), answer: u64) -> Written {
    let call = call!(Why, about(at.file, at.marks, x), state: at.state.to_vec(), y);
    written(&format!("why: {name}"), call, answer, vec![], vec![])
}

fn why(name: &str, at: At, event: (u8, u8), input: Reason, output: Reason) -> Written {
    let answer = input.0 << 8 | input.1 << 16 | output.0 << 32 | output.1 << 40;
    asked(name, at, event, answer)
}

/// Neither half is edited.
fn kept(name: &str, at: At, event: (u8, u8)) -> Written {
    why(name, at, event, NOT_EDITED, NOT_EDITED)
}

/// The input alone is edited.
fn input(name: &str, at: At, event: (u8, u8), reason: Reason) -> Written {
    why(name, at, event, reason, NOT_EDITED)
}

/// The output alone is edited.
fn output(name: &str, at: At, event: (u8, u8), reason: Reason) -> Written {
    why(name, at, event, NOT_EDITED, reason)
}

fn start<'a>(file: &'a str, marks: &'a [u8]) -> At<'a> {
    At {
        file,
        marks,
        state: &START,
    }
}

fn not_edited() -> Vec<Written> {
    vec![
        kept("S", start(S, &[1]), (1, 1)),
        kept("T", start(T, &[1, 0]), (0, 1)),
        kept("D", start(D, &[1; 8]), (1, 0)),
        kept(
            "bytes past the marks are not looked at",
            start(T, &[1, 0, 0, 255, 1]),
            (0, 1),
        ),
    ]
}

/// Two outputs. 0 and 1 stay; 2 leads along 1, 2, 3 to the end; 3 is a
/// violation. Rule numbers go on through the file.
const CHAIN: &str = "00 02 41 42 00 05 00 00 00 00 00 00 07 \
    00 00 00 03 03 00 FF \
    00 00 00 03 02 00 01 \
    00 00 00 03 01 00 04 \
    00 00 00 00 00 00 00 \
    01 00 00 00 00 00 02 \
    02 00 00 00 00 00 03 \
    04 00 00 03 00 00 04";
const CHAIN_MARKS: [u8; 5] = [1, 0, 0, 0, 1];

/// What A begins goes round for ever: 1 to 2, which rests once, then 3, which
/// must be left and never is.
const RESTS_ONCE: &str = "00 01 41 00 04 00 01 00 01 00 05 \
    00 00 00 01 01 00 01 \
    00 00 00 00 00 00 00 \
    01 00 00 00 00 00 02 \
    02 00 00 00 00 00 03 \
    03 00 00 00 00 00 03";

/// The same with a loop that rests nowhere before it: k is still 1.
const RESTS_LATER: &str = "00 01 41 00 04 00 01 00 01 00 06 \
    00 00 00 01 01 00 01 \
    00 00 00 00 00 00 00 \
    01 00 00 01 01 00 01 \
    01 00 00 00 00 00 02 \
    02 00 00 00 00 00 03 \
    03 00 00 00 00 00 03";

fn outputs() -> Vec<Written> {
    let in_four = At {
        state: &[4, 0, 0, 0, 0],
        ..start(CHAIN, &CHAIN_MARKS)
    };
    let due = At {
        state: &[1, 3, 0, 0, 0],
        ..start(D, &[1; 8])
    };
    let late = At {
        state: &[0, 3, 0, 0, 0],
        ..start(K, &[1; 4])
    };
    let chain = start(CHAIN, &CHAIN_MARKS);
    vec![
        output("S: R with B, rule 1", start(S, &[1]), (2, 1), rule(1)),
        output("K: credit at 3, rule 0", late, (0, 1), rule(0)),
        output("D: the fourth tick, no rule", due, (1, 0), NO_RULE),
        output("two more ticks", chain, (0, 2), ticks(2)),
        output("rule 0", chain, (0, 3), rule(0)),
        kept("location 4 stays", chain, (0, 1)),
        output("no rule at location 4", in_four, (0, 2), NO_RULE),
        output(
            "for ever, with one rest",
            start(RESTS_ONCE, &[1, 0, 0, 0]),
            (0, 1),
            rests(1),
        ),
        output(
            "for ever, with one rest at last",
            start(RESTS_LATER, &[1, 0, 0, 0]),
            (0, 1),
            rests(1),
        ),
    ]
}

/// One input and two outputs. Without A all may be. With A: 0 is a violation
/// by rule 0, 1 ends after no tick, 2 after one tick.
const BY_OUTPUT: &str = "01 41 02 42 43 00 03 00 00 00 00 05 \
    00 01 01 03 00 00 FF \
    00 01 01 03 01 00 02 \
    00 01 01 03 02 00 01 \
    00 01 00 00 00 00 00 \
    01 00 00 00 00 00 02";

/// The same, and output 3 leads to where it goes on for ever without rest.
const BY_REST: &str = "01 41 02 42 43 00 04 00 00 00 01 00 07 \
    00 01 01 03 00 00 FF \
    00 01 01 03 01 00 02 \
    00 01 01 03 02 00 01 \
    00 01 01 03 03 00 03 \
    00 01 00 00 00 00 00 \
    01 00 00 00 00 00 02 \
    03 00 00 00 00 00 03";

/// What A begins must be left: with A it goes on for ever there and never rests,
/// and without A it ends at rest. A stream that ends counts too, so k is 1.
const ENDS_AT_REST: &str = "01 41 01 52 00 03 00 01 00 00 04 \
    00 01 01 00 00 00 01 \
    00 00 00 00 00 00 00 \
    01 01 01 00 00 00 01 \
    01 00 00 00 00 00 02";

fn inputs() -> Vec<Written> {
    vec![
        input("T: no tick more", start(T, &[1, 0]), (1, 0), ticks(0)),
        input("S: A with B, rule 0", start(S, &[1]), (3, 0), rule(0)),
        input(
            "a transfer that never ends",
            start(UNFINISHED, &[1, 0]),
            (1, 0),
            rests(0),
        ),
        input(
            "for ever without rest, or one rest and an end",
            start(ENDS_AT_REST, &[1, 0, 0]),
            (1, 0),
            rests(1),
        ),
        input(
            "the greatest over all outputs",
            start(BY_OUTPUT, &[1, 0, 0]),
            (1, 0),
            ticks(1),
        ),
        input(
            "rests go before ticks, though they are fewer",
            start(BY_REST, &[1, 0, 0, 0]),
            (1, 2),
            rests(0),
        ),
        input(
            "every output a violation: the lowest has no rule",
            start(NO_RULE_FIRST, &[1]),
            (1, 0),
            NO_RULE,
        ),
    ]
}

/// With A output 1 is a violation by rule 0, and output 0 has no rule.
const NO_RULE_FIRST: &str = "01 41 01 42 00 01 00 00 02 \
    00 01 01 01 01 00 FF \
    00 01 00 00 00 00 00";

/// A never, and then B never: the output is judged with the input passed on.
const NEITHER: &str = "01 41 01 42 00 01 00 00 03 \
    00 01 01 00 00 00 FF \
    00 00 00 01 01 00 FF \
    00 00 00 00 00 00 00";

fn both() -> Vec<Written> {
    vec![
        why("both", start(NEITHER, &[1]), (1, 1), rule(0), rule(1)),
        input("the input only", start(NEITHER, &[1]), (1, 0), rule(0)),
        output("the output only", start(NEITHER, &[1]), (0, 1), rule(1)),
    ]
}

/// "Marks belong to the reading they were made under, and 2/13 checks that."
fn by_reading() -> Vec<Written> {
    let at_none = "00 00 01 00 01 01 00 00 01 00 00 00 00 00 01 00 00 00 00 00";
    let waiting = At {
        state: &[1, 2, 0, 0, 0],
        ..start(D, &[1; 8])
    };
    vec![
        kept("D: the third tick", waiting, (0, 0)),
        output("D: the third tick", waiting, (0, 0), NO_RULE).under(2),
        kept("at 0 only", start(at_none, &[1, 0]), (0, 0)),
        asked(
            "20: marks of reading 1",
            start(at_none, &[1, 0]),
            (0, 0),
            20,
        )
        .under(2),
    ]
}

fn refused() -> Vec<Written> {
    vec![
        asked("20: a dead state marked", start(T, &[1, 1]), (0, 0), 20),
        asked("20: 2 for 0", start(T, &[1, 2]), (0, 0), 20),
        asked("20: 255 for 0", start(T, &[1, 255, 0]), (0, 0), 20),
        asked(
            "20: a live state not marked",
            start(D, &[1, 1, 1, 1, 1, 1, 1, 0]),
            (0, 0),
            20,
        ),
        asked("20: N, where 17 would be", start(N, &[1]), (0, 0), 20),
        asked(
            "20: in a dead state that is marked",
            At {
                state: &[1, 0, 0, 0, 0],
                ..start(T, &[1, 1])
            },
            (0, 0),
            20,
        ),
        asked(
            "16: in a dead state",
            At {
                state: &[1, 0, 0, 0, 0],
                ..start(T, &[1, 0])
            },
            (0, 0),
            16,
        ),
        asked("15: x", start(S, &[1]), (4, 0), 15),
        asked("15: y", start(S, &[1]), (0, 2), 15),
        asked("15: an edited x and a wrong y", start(S, &[1]), (3, 2), 15),
    ]
}

/// 22, 1 to 9, 10, 16, 20, 15.
fn in_order() -> Vec<Written> {
    let wrong = |file, marks| At {
        file,
        marks,
        state: &[9; 6],
    };
    vec![
        asked("22 first", wrong("05", &[]), (255, 255), 22).under(3),
        asked("22 first", start(T, &[1, 0]), (0, 0), 22).under(0),
        asked("1", wrong("00", &[]), (255, 255), 1),
        asked("9 before 10", wrong(OVERFULL, &[]), (255, 255), 9),
        asked("10 before 16", wrong(T, &[1]), (255, 255), 10),
        asked("16 before 20", wrong(T, &[2, 2]), (255, 255), 16),
        asked(
            "16: its own mark, before 20",
            start(T, &[2, 2]),
            (255, 255),
            16,
        ),
        asked("20 before 15", start(T, &[1, 1]), (255, 255), 20),
        asked("15 last", start(T, &[1, 0]), (255, 255), 15),
    ]
}
