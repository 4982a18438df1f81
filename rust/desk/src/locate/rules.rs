//! The rules of a file: what is wrong with the first that is.

use super::{found, number, within, Cursor, Found, Head};

const RULE: u8 = 6;
const BOUNDS: u8 = 7;

const MOST_RULES: usize = 256;
const NO_UPPER_BOUND: u16 = 65_535;
const VIOLATION: u8 = 255;

/// How long the part of a rule before its bounds is, and the bounds of one clock.
const RULE_HEAD: usize = 7;
const RULE_BOUNDS: usize = 4;

pub fn walk(cursor: &mut Cursor, head: &Head) -> Result<(), Found> {
    let at = cursor.at;
    let count = cursor.count(2, "rules")?;
    within(count, 0, MOST_RULES, at, "rules")?;
    let first = cursor.at;
    let size = RULE_HEAD + RULE_BOUNDS * head.ceilings.len();
    let mut last_source = 0;
    for (rule, bytes) in cursor
        .items(count, size, "rules")?
        .chunks_exact(size)
        .enumerate()
    {
        let byte = first + rule * size;
        if let Some((at, words)) = wrong_head(bytes, head, last_source) {
            return found(RULE, format!("rule {rule}, byte {}: {words}", byte + at));
        }
        last_source = bytes[0];
        for (clock, (bounds, &ceiling)) in bytes[RULE_HEAD..]
            .chunks_exact(RULE_BOUNDS)
            .zip(&head.ceilings)
            .enumerate()
        {
            if let Some((at, words)) = wrong_bounds(number(bounds), number(&bounds[2..]), ceiling) {
                let at = byte + RULE_HEAD + RULE_BOUNDS * clock + at;
                return found(
                    BOUNDS,
                    format!("rule {rule}, clock {clock}, byte {at}: {words}"),
                );
            }
        }
    }
    Ok(())
}

/// What is wrong in the first seven bytes of a rule, and at which of them.
fn wrong_head(rule: &[u8], head: &Head, last_source: u8) -> Option<(usize, String)> {
    let (source, target) = (rule[0], rule[6]);
    let locations = head.locations;
    if usize::from(source) >= locations {
        return Some((
            0,
            format!("its source {source} is no location; there are {locations}"),
        ));
    }
    if source < last_source {
        return Some((
            0,
            format!("its source {source} comes after {last_source}; sources never fall"),
        ));
    }
    let masks = [
        (1, head.inputs, "input care", "inputs"),
        (3, head.outputs, "output care", "outputs"),
    ];
    for (at, count, mask, what) in masks {
        if beyond(rule[at], count) {
            return Some((
                at,
                format!("its {mask} {:#04x} has a bit beyond the {what}", rule[at]),
            ));
        }
        if rule[at + 1] & !rule[at] != 0 {
            let value = rule[at + 1];
            return Some((
                at + 1,
                format!("its value {value:#04x} has a bit outside its {mask}"),
            ));
        }
    }
    if beyond(rule[5], head.ceilings.len()) {
        return Some((
            5,
            format!(
                "its reset mask {:#04x} has a bit beyond the clocks",
                rule[5]
            ),
        ));
    }
    if usize::from(target) >= locations && target != VIOLATION {
        return Some((
            6,
            format!("its target {target} is no location and not 255; there are {locations}"),
        ));
    }
    None
}

fn beyond(mask: u8, count: usize) -> bool {
    u32::from(mask) >> count != 0
}

/// What is wrong with the bounds of one clock, and at which of their bytes.
fn wrong_bounds(low: u16, high: u16, ceiling: u16) -> Option<(usize, String)> {
    if low > high {
        return Some((0, format!("the low {low} is above the high {high}")));
    }
    if low > ceiling {
        return Some((0, format!("the low {low} is above the ceiling {ceiling}")));
    }
    if high >= ceiling && high != NO_UPPER_BOUND {
        return Some((
            2,
            format!("the high {high} is not below the ceiling {ceiling}"),
        ));
    }
    None
}
