//! Every refusal that this package can meet, by its number.

use groovepawn::{
    ticks, Bays, Index, Marks, Meter, Policy, Reading, Refusal, Rounding, State, Station, WhyRoom,
};

/// T: after A there is no way on.
const T: &[u8] = &[
    1, b'A', 1, b'B', 0, 2, 0, 0, 0, 2, 0, 1, 1, 0, 0, 0, 1, 0, 0, 0, 0, 0, 0, 0,
];

/// All is permitted, over an input P and an output D.
const METERED: &[u8] = &[1, b'P', 1, b'D', 0, 1, 0, 0, 1, 0, 0, 0, 0, 0, 0, 0];

fn policy(file: &[u8]) -> Policy {
    Policy::check(file).expect("it passes its check")
}

fn marks(policy: &Policy) -> Marks {
    policy
        .prepare(Reading::AtStart)
        .expect("it is not hopeless")
        .0
}

fn number<T>(answer: Result<T, Refusal>) -> u8 {
    answer.err().expect("it is refused").number()
}

#[test]
fn marks_that_are_not_the_policys() {
    let policy = policy(T);
    let short = Marks::from_bytes(Reading::AtStart, vec![1]);
    assert_eq!(number(Station::new(&policy, &short).input(0)), 10);
    let none = Marks::from_bytes(Reading::AtStart, vec![0, 0]);
    assert_eq!(number(Station::new(&policy, &none).input(0)), 16);
    let other = Marks::from_bytes(Reading::AtStart, vec![1, 1]);
    assert_eq!(number(Station::new(&policy, &other).why(0, 0)), 20);
    // The second location has no rule: nothing leads on from it.
    let state = State::from([1, 0, 0, 0, 0]);
    assert_eq!(number(Station::at(&policy, &other, state).input(0)), 17);
}

#[test]
fn a_run_that_stops_says_how_far_it_came() {
    let policy = policy(T);
    let other = Marks::from_bytes(Reading::AtStart, vec![1, 1]);
    let mut released = [9; 3];
    let run = Station::new(&policy, &other)
        .run(&[0, 1, 0], &mut released)
        .expect("17 is told with the run");
    assert_eq!(
        (run.released, run.stopped.map(|refusal| refusal.number())),
        (2, Some(17))
    );
    assert_eq!(released, [0, 1, 9]);
}

#[test]
fn slices_and_states() {
    let policy = policy(T);
    let marks = marks(&policy);
    assert_eq!(
        number(Station::new(&policy, &marks).run(&[0, 0], &mut [0])),
        14
    );
    assert_eq!(number(Station::new(&policy, &marks).input(2)), 15);
    assert_eq!(
        number(Station::at(&policy, &marks, State::from([2, 0, 0, 0, 0])).input(0)),
        16
    );
    let mut small = WhyRoom::new(&Policy::check(METERED).expect("it passes"), 1);
    assert_eq!(
        number(
            Station::new(&policy, &marks)
                .why_run(&[0], &mut small)
                .map(drop)
        ),
        23
    );
    assert_eq!(number(policy.wave(&vec![0; 16_385])), 29);
    assert_eq!(number(policy.wave_events(b"")), 21);
    let wrong = Index::from_numbers([0; 128]);
    assert_eq!(
        number(Station::new(&policy, &marks).output_indexed(&wrong, 0, 0)),
        28
    );
}

#[test]
fn bays_and_meters() {
    let (policy, metered) = (policy(T), policy(METERED));
    let marks_of_t = marks(&policy);
    for count in [0, 9, usize::MAX] {
        assert_eq!(number(Bays::new(&policy, &marks_of_t, count)), 25);
    }
    let mut bays = Bays::new(&policy, &marks_of_t, 8).expect("eight are allowed");
    assert_eq!(number(bays.output(8, 0, 0)), 24);
    let without = Meter::new(&policy, &marks_of_t, 0).expect("the policy is not looked at");
    assert_eq!(number(without.input(0, 0)), 26);
    let marks = marks(&metered);
    let mut meter = Meter::new(&metered, &marks, 0).expect("it is set up");
    let mut register = 0u16;
    let full = loop {
        register = register.wrapping_add(65_535);
        let x = meter
            .input(register, 0)
            .expect("no refusal before the total is full");
        if let Err(refusal) = meter.output(register, x, 1) {
            break refusal;
        }
    };
    assert_eq!(
        (full.number(), meter.totals().billed),
        (27, 65_537 * 65_535)
    );
}

#[test]
fn joins_and_times() {
    assert_eq!(number(policy(T).join(&policy(METERED))), 12);
    let clocked = policy(&[0, 0, 3, 0, 1, 0, 1, 0, 1, 1, 0, 0, 0]);
    assert_eq!(number(clocked.join(&clocked)), 13);
    assert_eq!(number(ticks(5, 0, Rounding::Down)), 18);
    assert_eq!(number(ticks(5_000, 1, Rounding::Down)), 19);
    assert_eq!(number(Reading::try_from(0)), 22);
}

#[test]
fn every_number_has_words_of_its_own() {
    let words: Vec<&str> = (1..=29).map(|number| Refusal::of(number).words()).collect();
    for (place, one) in words.iter().enumerate() {
        assert!(!words[..place].contains(one), "{one}");
    }
    assert_eq!(Refusal::of(200).words(), "a refusal of another version");
}

/// The package has the version of the functions that it calls.
#[test]
fn the_version_is_that_of_the_header() {
    let (major, minor, patch) = groovepawn::HEADER_VERSION;
    assert_eq!(
        format!("{major}.{minor}.{patch}"),
        env!("CARGO_PKG_VERSION")
    );
}
