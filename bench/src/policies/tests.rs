//! What the policies are said to be, tried with the plain program.

use super::*;
use crate::plain::{join, prepare, Prepared, Refusal};

fn prepare_policy(policy: &Policy) -> Prepared {
    prepare(1, &policy.encode(), &mut [0; MOST_STATES]).expect("a live start")
}

#[test]
fn the_long_ones_have_256_rules() {
    assert_eq!(long().rules.len(), 256);
    assert_eq!(long().encode().len(), LONGEST_FILE);
    for policy in [crowded(), barred(), nested()] {
        assert_eq!(policy.rules.len(), 256);
        assert!(policy.rules.iter().all(|rule| rule.source == 0));
    }
}

#[test]
fn what_is_prepared_has_live_and_dying_states() {
    let sizes = [
        (thousand(), 1_024),
        (ten_thousand(), 10_000),
        (full(), 65_536),
    ];
    for (policy, states) in sizes {
        let prepared = prepare_policy(&policy);
        assert_eq!(prepared.states, states);
        assert_eq!(policy.rules.len(), 4 * policy.locations.len());
        let share = prepared.live as f64 / states as f64;
        assert!((0.5..0.8).contains(&share), "{share} of {states}");
    }
}

#[test]
fn a_third_dies_or_most_do() {
    let counts = [(third_dies(), 43_157), (most_die(), 8_785)];
    for (policy, live) in counts {
        let prepared = prepare_policy(&policy);
        assert_eq!((prepared.states, prepared.live), (MOST_STATES, live));
    }
}

#[test]
fn where_all_die_no_mark_stays() {
    let mut marks = [1; MOST_STATES];
    let refused = prepare(1, &all_die().encode(), &mut marks);
    assert_eq!(refused, Err(Refusal::StartNotLive));
    assert_eq!(marks, [0; MOST_STATES]);
}

#[test]
fn each_nested_rule_takes_one_event() {
    let rules = nested().rules;
    let fires = |rule: &Rule, event: u8| {
        let agrees = |condition: Condition, bits| bits & condition.care == condition.value;
        agrees(rule.input, event >> 4) && agrees(rule.output, event & 15)
    };
    for event in 0..=255 {
        let first = rules.iter().position(|rule| fires(rule, event));
        assert_eq!(first, Some(event.into()));
    }
}

#[test]
fn some_states_die_because_they_must_be_left() {
    let policy = leaving();
    let left = policy.locations.iter().filter(|&&byte| byte == 1);
    assert_eq!((left.count(), policy.locations.len()), (52, 64));
    let prepared = prepare_policy(&policy);
    let all_rest = prepare_policy(&Policy {
        locations: vec![0; 64],
        ..policy
    });
    assert_eq!(prepared.states, 65_536);
    assert!(prepared.live > 25_000, "{}", prepared.live);
    let died = all_rest.live - prepared.live;
    assert!(died > 9_000, "{died}");
}

#[test]
fn where_none_dies_all_live() {
    let prepared = prepare_policy(&lasting());
    assert_eq!((prepared.states, prepared.live), (65_536, 65_536));
    assert_eq!(lasting().rules.len(), 256);
}

#[test]
fn where_the_dead_are_apart_all_others_are_reached() {
    let prepared = prepare_policy(&apart());
    assert_eq!((prepared.states, prepared.live), (65_536, 64_512));
    assert_eq!(prepared.verdict, 0);
    // With one way into the last location more.
    let mut entered = apart();
    entered.rules[200].target = 63;
    assert_eq!(prepare_policy(&entered).verdict, 1);
}

#[test]
fn few_states_of_the_longest_file_die() {
    let prepared = prepare_policy(&long());
    assert_eq!((prepared.states, prepared.verdict), (65_536, 1));
    assert!(prepared.live > 50_000, "{}", prepared.live);
}

#[test]
fn the_largest_join_meets_every_limit() {
    let (a, b) = largest_pair();
    let mut out = [0; LONGEST_FILE];
    assert_eq!(join(&a.encode(), &b.encode(), &mut out), Ok(out.len()));
    let states = prepare(1, &out, &mut [0; MOST_STATES])
        .expect("a live start")
        .states;
    assert_eq!(states, 65_536);
}
