//! Files that are wrong somewhere, and random ones.

// All damages have one type, and some of them change the length of the file.
#![allow(clippy::ptr_arg)]

use crate::policies;
use crate::policy::*;
use crate::random::Random;

/// Where the sections of an encoded policy begin, each at its count.
struct Layout {
    outputs: usize,
    clocks: usize,
    locations: usize,
    rules: usize,
    rule_length: usize,
}

impl Layout {
    fn of(policy: &Policy) -> Layout {
        let outputs = 1 + policy.inputs.len();
        let clocks = outputs + 1 + policy.outputs.len();
        let locations = clocks + 1 + 2 * policy.ceilings.len();
        Layout {
            outputs,
            clocks,
            locations,
            rules: locations + 1 + policy.locations(),
            rule_length: policy.rule_length(),
        }
    }

    fn rule(&self, index: usize) -> usize {
        self.rules + 2 + index * self.rule_length
    }
}

type Damage = fn(&mut Random, &Policy, &Layout, &mut Vec<u8>);

const DAMAGES: [Damage; 13] = [
    cut,
    lengthen,
    change_count,
    bad_count,
    bad_rule_count,
    bad_tag,
    repeat_tag,
    bad_ceiling,
    high_ceilings,
    bad_location,
    bad_rule,
    bad_bound,
    change_byte,
];

/// A file made from a valid one by one wrong thing, seldom two. Where the
/// policy has no place for the wrong thing drawn, a byte is changed instead,
/// which may by chance leave the file valid.
pub fn damaged(random: &mut Random, policy: &Policy) -> Vec<u8> {
    match random.below(100) {
        0..=7 => return noise(random),
        8..=10 => return policies::overfull(random).encode(),
        _ => {}
    }
    let mut file = policy.encode();
    let layout = Layout::of(policy);
    random.pick(&DAMAGES)(random, policy, &layout, &mut file);
    if random.percent(20) {
        let second: Damage = random.pick(&[cut, lengthen, change_byte]);
        second(random, policy, &layout, &mut file);
    }
    file
}

/// Every beginning of a file, from nothing to all but the last byte.
pub fn prefixes(file: &[u8]) -> Vec<Vec<u8>> {
    (0..file.len())
        .map(|length| file[..length].to_vec())
        .collect()
}

/// Bytes without a plan. Half of them are small numbers, so that some counts
/// are within their limits.
fn noise(random: &mut Random) -> Vec<u8> {
    let length = random.between(0, 40);
    let small = random.percent(50);
    let byte = |random: &mut Random| match small {
        true => random.byte() % 3,
        false => random.byte(),
    };
    (0..length).map(|_| byte(random)).collect()
}

fn cut(random: &mut Random, _: &Policy, _: &Layout, file: &mut Vec<u8>) {
    let length = random.below(file.len() as u64 + 1) as usize;
    file.truncate(length);
}

fn lengthen(random: &mut Random, _: &Policy, _: &Layout, file: &mut Vec<u8>) {
    let length = match random.below(20) {
        0 => 6_000,
        _ => random.between(1, 20),
    };
    file.extend(random.bytes(length));
}

fn change_byte(random: &mut Random, _: &Policy, _: &Layout, file: &mut Vec<u8>) {
    if file.is_empty() {
        return;
    }
    let place = random.between(0, file.len() - 1);
    file[place] = match random.below(3) {
        0 => file[place].wrapping_add(1),
        1 => file[place] ^ 1 << random.below(8),
        _ => random.byte(),
    };
}

/// A count one more or one less: what follows is read at the wrong places.
fn change_count(random: &mut Random, _: &Policy, layout: &Layout, file: &mut Vec<u8>) {
    let places = [
        0,
        layout.outputs,
        layout.clocks,
        layout.locations,
        layout.rules + 1,
    ];
    let place = random.pick(&places);
    file[place] = match random.percent(50) {
        true => file[place].wrapping_add(1),
        false => file[place].wrapping_sub(1),
    };
}

fn bad_count(random: &mut Random, _: &Policy, layout: &Layout, file: &mut Vec<u8>) {
    let (place, counts): (usize, &[u8]) = random.pick(&[
        (0, &[5, 6, 128, 255]),
        (layout.outputs, &[5, 8, 127, 255]),
        (layout.clocks, &[5, 16, 200, 255]),
        (layout.locations, &[0, 65, 128, 255]),
    ]);
    file[place] = random.pick(counts);
}

fn bad_rule_count(random: &mut Random, _: &Policy, layout: &Layout, file: &mut Vec<u8>) {
    // 256 is allowed, but its bytes are mostly not there.
    let count: u16 = random.pick(&[256, 257, 258, 512, 32_768, 65_535]);
    file[layout.rules..layout.rules + 2].copy_from_slice(&count.to_be_bytes());
    if random.percent(30) {
        file.resize(layout.rule(257), 0);
    }
}

/// The places of all tags.
fn tag_places(policy: &Policy, layout: &Layout) -> Vec<usize> {
    let inputs = 1..1 + policy.inputs.len();
    let outputs = layout.outputs + 1..layout.outputs + 1 + policy.outputs.len();
    inputs.chain(outputs).collect()
}

fn bad_tag(random: &mut Random, policy: &Policy, layout: &Layout, file: &mut Vec<u8>) {
    let places = tag_places(policy, layout);
    if places.is_empty() {
        return change_byte(random, policy, layout, file);
    }
    let tag = random.pick(&[0, b'@', b'[', b'a', b'z', b'0', 255]);
    file[random.pick(&places)] = tag;
}

fn repeat_tag(random: &mut Random, policy: &Policy, layout: &Layout, file: &mut Vec<u8>) {
    let mut places = tag_places(policy, layout);
    if places.len() < 2 {
        return change_byte(random, policy, layout, file);
    }
    random.shuffle(&mut places);
    file[places[0]] = file[places[1]];
}

fn ceiling_place(random: &mut Random, policy: &Policy, layout: &Layout) -> Option<usize> {
    let clocks = policy.ceilings.len();
    let place = |clock: usize| layout.clocks + 1 + 2 * clock;
    (clocks > 0).then(|| place(random.between(0, clocks - 1)))
}

fn put(file: &mut [u8], place: usize, number: u16) {
    file[place..place + 2].copy_from_slice(&number.to_be_bytes());
}

fn bad_ceiling(random: &mut Random, policy: &Policy, layout: &Layout, file: &mut Vec<u8>) {
    match ceiling_place(random, policy, layout) {
        Some(place) => put(file, place, random.pick(&[0, 1_002, 1_003, 32_768, 65_535])),
        None => change_byte(random, policy, layout, file),
    }
}

/// Higher ceilings keep every rule valid, but may make too many states.
fn high_ceilings(random: &mut Random, policy: &Policy, layout: &Layout, file: &mut Vec<u8>) {
    for (clock, &ceiling) in policy.ceilings.iter().enumerate() {
        let higher = match random.below(3) {
            0 => usize::from(MAX_CEILING),
            _ => random.between(usize::from(ceiling), usize::from(MAX_CEILING)),
        };
        put(file, layout.clocks + 1 + 2 * clock, higher as u16);
    }
    if policy.ceilings.is_empty() {
        change_byte(random, policy, layout, file);
    }
}

fn bad_location(random: &mut Random, policy: &Policy, layout: &Layout, file: &mut Vec<u8>) {
    let location = random.between(0, policy.locations() - 1);
    let any = random.between(2, 255) as u8;
    file[layout.locations + 1 + location] = random.pick(&[2, 255, any]);
}

/// Makes one of the first seven bytes of a rule wrong, as near to right as
/// it can be.
fn bad_rule(random: &mut Random, policy: &Policy, layout: &Layout, file: &mut Vec<u8>) {
    if policy.rules.is_empty() {
        return change_byte(random, policy, layout, file);
    }
    let index = random.between(0, policy.rules.len() - 1);
    let place = layout.rule(index);
    let rule = &policy.rules[index];
    let stray = 1 << random.below(8);
    match random.below(9) {
        0 => file[place] = random.pick(&[policy.locations() as u8, 64, 255]),
        1 => file[place] = rule.source.wrapping_sub(1),
        2 => file[place + 1] = rule.input.care | stray & !policy.input_mask(),
        3 => file[place + 2] = rule.input.value | stray & !rule.input.care,
        4 => file[place + 3] = rule.output.care | stray & !policy.output_mask(),
        5 => file[place + 4] = rule.output.value | stray & !rule.output.care,
        6 => file[place + 5] = rule.reset | stray & !policy.clock_mask(),
        7 => file[place + 6] = random.pick(&[policy.locations() as u8, 64, 254]),
        _ => file[place + random.between(0, 6)] = random.byte(),
    }
}

fn bad_bound(random: &mut Random, policy: &Policy, layout: &Layout, file: &mut Vec<u8>) {
    if policy.rules.is_empty() || policy.ceilings.is_empty() {
        return change_byte(random, policy, layout, file);
    }
    let clock = random.between(0, policy.ceilings.len() - 1);
    let index = random.between(0, policy.rules.len() - 1);
    let place = layout.rule(index) + 7 + 4 * clock;
    let ceiling = policy.ceilings[clock];
    let (low, high) = match random.below(8) {
        0 => (1, 0),
        1 => (ceiling, ceiling - 1),
        2 => (0, ceiling),
        3 => (ceiling, ceiling),
        4 => (ceiling + 1, NO_UPPER_BOUND),
        5 => (0, NO_UPPER_BOUND - 1),
        6 => (NO_UPPER_BOUND, NO_UPPER_BOUND),
        _ => (random.next() as u16, random.next() as u16),
    };
    put(file, place, low);
    put(file, place + 2, high);
}

#[cfg(test)]
mod tests {
    use super::*;
    use crate::parse;

    #[test]
    fn damage_gives_every_refusal_of_a_file() {
        let mut random = Random::new(81);
        let mut seen = [0; 10];
        for _ in 0..4_000 {
            let policy = policies::any(&mut random);
            let file = damaged(&mut random, &policy);
            let refusal = parse::check(&file)
                .err()
                .map_or(0, |refusal| refusal.number());
            seen[usize::from(refusal)] += 1;
        }
        assert!(seen[1..].iter().all(|&count| count > 40), "{seen:?}");
    }
}
