//! Policies to be joined.

use super::clean::clean_call;
use crate::call::Call;
use crate::damage;
use crate::join;
use crate::parse;
use crate::policies::{self, Family, Size};
use crate::policy::{Condition, Policy, MAX_SIGNALS};
use crate::random::Random;
use crate::reading::READINGS;
use crate::subject::{filler, lent_length, Subject};

pub fn around_join(random: &mut Random) -> Vec<Call> {
    let family = random.pick(&[Family::Small, Family::Small, Family::Large]);
    let reading = random.pick(&READINGS);
    let sisters = policies::sisters(random, reading, family, 2);
    let (a, b) = (sisters[0].encode(), sisters[1].encode());
    let mut made = vec![join_call(random, &a, &b), join_call(random, &b, &a)];
    made.push(match random.below(5) {
        0 => {
            let other = policies::of_size(random, Size::Tiny).encode();
            join_call(random, &a, &other)
        }
        1 => {
            let swapped = with_other_signals(random, &sisters[1]).encode();
            join_call(random, &a, &swapped)
        }
        2 => {
            let file = damaged_part(random, &sisters[0]);
            join_call(random, &file, &b)
        }
        3 => {
            let file = damaged_part(random, &sisters[1]);
            join_call(random, &a, &file)
        }
        _ => join_call(random, &a, &a),
    });
    // Joined tables are those that are cleaned.
    let mut out = vec![0; 6_000];
    if let Ok(length) = join::join(&a, &b, &mut out) {
        let joined = parse::check(&out[..length]).expect("a join is a policy");
        made.push(clean_call(random, &Subject::new(joined, reading)));
    }
    if random.percent(20) {
        made.push(join_at_limit(random));
    }
    made
}

/// Something damaged in place of a sister; often not made from her, since
/// sisters have too few clocks to be wrong in every way.
fn damaged_part(random: &mut Random, sister: &Policy) -> Vec<u8> {
    match random.percent(50) {
        true => damage::damaged(random, sister),
        false => {
            let policy = policies::of_size(random, Size::Small);
            damage::damaged(random, &policy)
        }
    }
}

/// The same policy with its signals named or ordered otherwise, or with an
/// input turned into an output.
fn with_other_signals(random: &mut Random, policy: &Policy) -> Policy {
    let mut other = policy.clone();
    match random.below(3) {
        0 => other.inputs.reverse(),
        1 => other.outputs.reverse(),
        _ => {
            other.rules.clear();
            if let Some(tag) = other.inputs.pop() {
                other.outputs.insert(0, tag);
                other.outputs.truncate(MAX_SIGNALS);
            }
        }
    }
    other
}

/// Two policies whose join just meets or just passes one limit.
fn join_at_limit(random: &mut Random) -> Call {
    let plain = |locations, ceilings: &[u16], rules| {
        let mut policy = policies::unit(b"A", b"");
        policy.rules = vec![policy.rules[0].clone(); rules];
        policy.ceilings = ceilings.to_vec();
        policy.must_leave = vec![false; locations];
        policy
    };
    let (mut a, mut b) = match random.below(9) {
        0 => (plain(8, &[], 1), plain(8, &[], 1)),
        1 => (plain(8, &[], 1), plain(9, &[], 1)),
        2 => (plain(1, &[1, 2], 1), plain(1, &[3, 4], 1)),
        3 => (plain(1, &[1, 2, 3], 1), plain(1, &[3, 4], 1)),
        4 => (plain(1, &[], 16), plain(1, &[], 16)),
        5 => (plain(1, &[], 17), plain(1, &[], 16)),
        6 => (plain(1, &[255], 1), plain(1, &[255], 1)),
        7 => (plain(1, &[255], 1), plain(1, &[256], 1)),
        // 289 pairs, of which so many contradict that about 256 are left.
        _ => {
            let (mut a, mut b) = (plain(1, &[], 17), plain(1, &[], 17));
            let (set, unset) = random.pick(&[(3, 11), (4, 8), (2, 16), (2, 17), (5, 7)]);
            for rule in &mut a.rules[..set] {
                rule.input = Condition { care: 1, value: 1 };
            }
            for rule in &mut b.rules[..unset] {
                rule.input = Condition { care: 1, value: 0 };
            }
            (a, b)
        }
    };
    for part in [&mut a, &mut b] {
        part.must_leave = policies::some_must_leave(random, part.locations());
    }
    if random.percent(50) {
        std::mem::swap(&mut a, &mut b);
    }
    join_call(random, &a.encode(), &b.encode())
}

fn join_call(random: &mut Random, a: &[u8], b: &[u8]) -> Call {
    let mut room = vec![0; 6_000];
    let needed = join::join(a, b, &mut room).unwrap_or(40);
    let length = lent_length(random, needed);
    Call::Join {
        a: a.to_vec(),
        b: b.to_vec(),
        out: filler(random, length),
    }
}
