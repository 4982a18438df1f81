//! The commands and their options: the words of `--help` and of the man page, and the
//! table that options are read by.

use crate::commands;
use crate::fault::Fault;
use crate::words::Words;

/// An option of a command.
pub struct Flag {
    pub name: &'static str,
    pub value: Option<&'static str>,
    pub words: &'static str,
}

/// A command.
pub struct Command {
    pub name: &'static str,
    /// What stands behind the name.
    pub takes: &'static str,
    /// One line.
    pub does: &'static str,
    /// Paragraphs.
    pub more: &'static [&'static str],
    pub flags: &'static [&'static Flag],
    pub obey: fn(&Words) -> Result<(), Fault>,
}

impl Command {
    pub fn usage(&self) -> String {
        format!("{} {}", self.name, self.takes)
    }
}

pub const READING: Flag = Flag {
    name: "-r",
    value: Some("1|2"),
    words: "the reading of deadlines: 1, the clock is read at the start of a tick; 2, after the tick is counted",
};
pub const OUT: Flag = Flag {
    name: "-o",
    value: Some("FILE"),
    words: "the file to write; it is there whole or not at all",
};
pub const CLEAN: Flag = Flag {
    name: "--clean",
    value: None,
    words: "clean each policy, and after every join, under the reading of -r, so that more fits",
};
pub const BYTES: Flag = Flag {
    name: "--bytes",
    value: None,
    words: "EVENTS has one byte for each tick: the inputs in its low four bits, the outputs in its high four",
};
pub const PLAIN: Flag = Flag {
    name: "--plain",
    value: None,
    words: "print what the program enforce prints: numbers, and F or E for each half",
};
pub const FROM: Flag = Flag {
    name: "--from",
    value: Some("N"),
    words: "the first tick to tell of, counted from 1",
};
pub const TO: Flag = Flag {
    name: "--to",
    value: Some("N"),
    words: "the last tick to tell of",
};
pub const ALL: Flag = Flag {
    name: "--all",
    value: None,
    words: "also the signals as read, and for each half a wire that is on where it was edited; of any length",
};
pub const TICK: Flag = Flag {
    name: "--tick",
    value: Some("LENGTH"),
    words: "how long a tick is, as 100ms",
};
pub const DOWN: Flag = Flag {
    name: "--down",
    value: None,
    words: "round down: the ticks that are over by then",
};
pub const UP: Flag = Flag {
    name: "--up",
    value: None,
    words: "round up: the tick by which it is over",
};

pub const NAME: &str = "groovepawn";
pub const SUMMARY: &str =
    "policies for transfer stations: write, check, join, clean, run, explain, draw";

pub const ABOUT: &[&str] = &[
    "A policy says which inputs and outputs of a station may come, tick by tick. The enforcer \
     stands between the field wiring and the controller: it corrects what the policy forbids, \
     as little as possible, the input first. What is permitted, released and refused, and why, \
     is decided by the proved library; this program shows its answers.",
];

pub const FILES: &[&str] = &[
    "POLICY is a policy as text (docs/POLICY-TEXT.md) or a policy file (docs/POLICY-FILE.md): the \
     first byte tells, below 9 in a file. Where rules, locations, clocks and signals of a text are \
     told, they have its names and lines. EVENTS is a text with a line for each tick: the signals \
     that are on, by their letters or names, with blanks between them; - where none is on; * 20 \
     at the end for twenty such ticks; # begins a comment. A blank line is no tick. With --bytes it has one byte for each tick. It may \
     be of any length. The word - stands for standard input. Where a run needs a reading and -r \
     does not name it, it is 1, as that of the program enforce.",
];

pub const STATUS: &[&str] = &[
    "0: done. 1: refused, with the number, its words and the place on standard error, or a file \
     could not be read or written, or a text of events is wrong. 2: called wrongly.",
];

pub const COMMANDS: &[Command] = &[
    Command {
        name: "check",
        takes: "[-r 1|2] POLICY ..",
        does: "say how many states a policy has, how many are live, and its verdict; or where it is wrong",
        more: &[
            "A state is live if a stream can go on from it for ever, and come again and again to a \
             location that need not be left. Verdict 0: every state that a permitted stream leads \
             to is live. Verdict 1: the start is live, and some such state is not: the enforcer \
             will keep streams away from it. What is of no use is counted: often a rule stands \
             too late, for the first that fires decides. A policy whose start is not live is hopeless, and refused by 11. Without \
             -r both readings are told.",
        ],
        flags: &[&READING],
        obey: commands::check::obey,
    },
    Command {
        name: "compile",
        takes: "TEXT -o FILE",
        does: "write the policy file of a policy's text",
        more: &[
            "A text that is wrong is refused with the line where it fails, and nothing is \
             written. The file has no names and no comments; keep the text.",
        ],
        flags: &[&OUT],
        obey: commands::compile::obey,
    },
    Command {
        name: "show",
        takes: "POLICY [-o FILE]",
        does: "print a policy as text",
        more: &[
            "Signals have their letters, clocks the names t0, t1, .. and locations q0, q1, .., \
             for a file has no others. The text compiles to the same file, byte for byte.",
        ],
        flags: &[&OUT],
        obey: commands::show::obey,
    },
    Command {
        name: "join",
        takes: "[--clean -r 1|2] POLICY POLICY .. -o FILE",
        does: "join policies over the same signals into one that asks what all ask",
        more: &[
            "They are joined from left to right, signal by signal, by their letters. A join has at \
             most 64 locations, 4 clocks, 256 rules and 65,536 states; rules multiply, so clean in \
             between. The join is a file, with letters and numbers and no names: check it, and \
             ask why of each part to learn which clause forbids an event.",
        ],
        flags: &[&CLEAN, &READING, &OUT],
        obey: commands::join::obey,
    },
    Command {
        name: "clean",
        takes: "-r 1|2 POLICY -o FILE",
        does: "write a policy without what is of no use, and print what went",
        more: &[
            "Under the reading named the cleaned policy releases the same for every stream; under \
             the other it may release something else. Numbers are those of the old policy, \
             counted from 0. The last line says how long the cleaned policy is. It is a file, with \
             letters and numbers and no names.",
        ],
        flags: &[&READING, &OUT],
        obey: commands::clean::obey,
    },
    Command {
        name: "run",
        takes: "[-r 1|2] [--bytes] [--plain] POLICY EVENTS",
        does: "print what is released, a line for each tick",
        more: &[
            "The lines are themselves a text of events: the signals released, and in a comment \
             the tick, with what was read where a half was edited. With --bytes one byte is \
             read and written for each tick.",
        ],
        flags: &[&READING, &BYTES, &PLAIN],
        obey: commands::run::obey,
    },
    Command {
        name: "why",
        takes: "[-r 1|2] [--bytes] [--from N] [--to N] POLICY EVENTS",
        does: "tell for each edited tick what was read and released, and why",
        more: &[
            "Of a text, rules have their lines, and locations and clocks their names; of a file they \
             are counted from 0. The last line says how many of the ticks told of were edited.",
        ],
        flags: &[&READING, &BYTES, &FROM, &TO],
        obey: commands::why::obey,
    },
    Command {
        name: "wave",
        takes: "[-r 1|2] [--bytes] [--all] POLICY EVENTS -o FILE",
        does: "write what is released as a file for wave viewers (Value Change Dump)",
        more: &[
            "A time of the file is a tick, drawn as 100 ms, and the first is 0. Without --all there \
             are at most 16,384, and signals have their letters; with it they have their names.",
        ],
        flags: &[&READING, &BYTES, &ALL, &OUT],
        obey: commands::wave::obey,
    },
    Command {
        name: "draw",
        takes: "[-r 1|2] POLICY [-o FILE]",
        does: "write the automaton for Graphviz (dot -Tsvg)",
        more: &[
            "Locations that must be left have two rings, violations are red, and what no \
             permitted stream enters or uses under the reading is grey and dashed.",
        ],
        flags: &[&READING, &OUT],
        obey: commands::draw::obey,
    },
    Command {
        name: "firmware",
        takes: "[-r 1|2] POLICY [-o FILE]",
        does: "write a C header with the policy, its marks and its index as constants",
        more: &[
            "A small controller has them in flash and prepares nothing. The names are policy, \
             marks and rule_index; POLICY_READING is the reading that the marks belong to.",
        ],
        flags: &[&READING, &OUT],
        obey: commands::firmware::obey,
    },
    Command {
        name: "live",
        takes: "[-r 1|2] POLICY",
        does: "correct a running station: read x, write x', read y, write y', one byte each, tick after tick",
        more: &[
            "The lowest bit of x is the first input, that of y the first output. Each byte is \
             answered at once. The end of the input between two ticks ends it with \
             status 0, within a tick with status 1. A byte with a bit beyond its signals is \
             refused: nothing is written for it, and it ends with status 1.",
        ],
        flags: &[&READING],
        obey: commands::live::obey,
    },
    Command {
        name: "ticks",
        takes: "TIME --tick LENGTH --down|--up",
        does: "print a time in ticks",
        more: &[
            "TIME and LENGTH are whole numbers with a unit: ms, s or min, as 250ms.",
        ],
        flags: &[&TICK, &DOWN, &UP],
        obey: commands::ticks::obey,
    },
];
