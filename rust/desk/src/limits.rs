//! By what limit two policies cannot be joined, in words. That they cannot, the
//! library says.

use groovepawn::Policy;

/// What of a join would be over its limit.
pub fn over(a: &Policy, b: &Policy) -> String {
    let counts = [
        (a.locations().len() * b.locations().len(), 64, "locations"),
        (a.ceilings().len() + b.ceilings().len(), 4, "clocks"),
        (rules(a, b), 256, "rules"),
        (a.states() * b.states(), 65_536, "states"),
    ];
    let over: Vec<String> = counts
        .into_iter()
        .filter(|&(count, most, _)| count > most)
        .map(|(count, most, what)| format!("{count} {what}, and {most} is the most"))
        .collect();
    format!(
        "{} (docs/WRITING-POLICIES.md, how far joins go)",
        over.join("; ")
    )
}

/// The signals of two policies, which differ.
pub fn signals(a: &Policy, b: &Policy) -> String {
    let tags = |policy: &Policy| {
        let letters = |tags: &[u8]| String::from_utf8_lossy(tags).into_owned();
        format!(
            "inputs '{}' and outputs '{}'",
            letters(policy.inputs()),
            letters(policy.outputs())
        )
    };
    format!("{}, against {}", tags(a), tags(b))
}

/// How many rules the join would have: one for each pair of a rule of each, at each
/// pair of locations, whose signals do not contradict.
fn rules(a: &Policy, b: &Policy) -> usize {
    let (of_a, of_b) = (a.rules(), b.rules());
    let pairs = of_a
        .iter()
        .flat_map(|one| of_b.iter().map(move |other| (one, other)));
    pairs
        .filter(|(one, other)| {
            let inputs = one.input_care & other.input_care & (one.input_value ^ other.input_value);
            let outputs =
                one.output_care & other.output_care & (one.output_value ^ other.output_value);
            inputs == 0 && outputs == 0
        })
        .count()
}
