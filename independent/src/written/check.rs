//! The check alone: how many states a policy has.

use super::halves::OVERFULL;
use super::*;
use crate::samples::*;

pub fn all() -> Vec<Written> {
    let most_locations = format!("{} 00 00", repeated("00 00 00 40", "00", 64));
    vec![
        counts("S", S, 1),
        counts("D", D, 8),
        counts("T", T, 2),
        counts("K", K, 4),
        counts("N, though its start is not live", N, 1),
        counts("64 locations", &most_locations, 64),
        counts("65,536 states", "00 00 02 00 FF 00 FF 01 00 00 00", 65_536),
        counts(
            "four clocks of 2, 3, 4 and 5 values, and two locations",
            "00 00 04 00 01 00 02 00 03 00 04 02 00 00 00 00",
            240,
        ),
        refused("65,792 states", OVERFULL, 9),
        refused("8 before 9", &format!("{OVERFULL} 00"), 8),
        refused("nothing at all", "", 1),
    ]
}

fn asked(name: &str, file: &str, answer: u64) -> Written {
    let call = Call::Check {
        file: from_hex(file),
    };
    written(&format!("check: {name}"), call, answer, vec![], vec![])
}

fn counts(name: &str, file: &str, states: u64) -> Written {
    asked(name, file, states << 8)
}

fn refused(name: &str, file: &str, number: u64) -> Written {
    asked(&format!("{number}: {name}"), file, number)
}
