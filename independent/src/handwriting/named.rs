//! Names for what a policy has, and its lines with them.

use super::{line, Line};
use crate::policy::*;
use crate::random::Random;
use crate::text::{is_name, LONGEST_NAME};

/// Names that are likely, some of them much like words that are none.
const LIKELY: [&str; 24] = [
    "credit",
    "pulse",
    "valve",
    "age",
    "idle",
    "open",
    "shut",
    "inputs",
    "output_1",
    "clocks",
    "a",
    "at_",
    "ats",
    "an",
    "any1",
    "violations",
    "resets",
    "mus",
    "b",
    "be_",
    "lef",
    "t0",
    "q0",
    "q10",
];

pub struct Names {
    /// For each signal, inputs first; none where it has its letter alone.
    signals: Vec<Option<String>>,
    clocks: Vec<String>,
    pub locations: Vec<String>,
}

impl Names {
    pub fn some(random: &mut Random, policy: &Policy) -> Names {
        let mut taken = Vec::new();
        let tags = policy.inputs.iter().chain(&policy.outputs);
        let named = random.pick(&[0, 50, 100]);
        let signals = tags
            .map(|_| random.percent(named).then(|| fresh(random, &mut taken)))
            .collect();
        let clocks = policy.ceilings.iter();
        let clocks = clocks.map(|_| fresh(random, &mut taken)).collect();
        // Locations may be called as signals and clocks are.
        let mut taken = Vec::new();
        let locations = policy.must_leave.iter();
        let locations = locations.map(|_| fresh(random, &mut taken)).collect();
        Names {
            signals,
            clocks,
            locations,
        }
    }

    /// The lines before the first `at`.
    pub fn declarations(&self, policy: &Policy) -> Vec<Line> {
        let mut lines = Vec::new();
        let inputs = policy.inputs.iter().map(|tag| ("input", tag));
        let outputs = policy.outputs.iter().map(|tag| ("output", tag));
        for ((word, &tag), name) in inputs.chain(outputs).zip(&self.signals) {
            let mut said = line([word, &char::from(tag).to_string()]);
            said.extend(name.iter().map(|name| name.clone().into_bytes()));
            lines.push(said);
        }
        for (name, ceiling) in self.clocks.iter().zip(&policy.ceilings) {
            lines.push(line(["clock", name, &ceiling.to_string()]));
        }
        for (name, &must_be_left) in self.locations.iter().zip(&policy.must_leave) {
            lines.push(match must_be_left {
                true => line(["location", name, "must", "be", "left"]),
                false => line(["location", name]),
            });
        }
        lines
    }

    pub fn rule(&self, random: &mut Random, policy: &Policy, rule: &Rule) -> Line {
        let mut said: Line = self.conditions(random, policy, rule).concat();
        said.extend(line(["->"]));
        said.extend(match rule.target {
            VIOLATION => line(["violation"]),
            target => line([&self.locations[usize::from(target)]]),
        });
        let named = self.clocks.iter().enumerate();
        let resets = named.filter(|(clock, _)| rule.reset >> clock & 1 == 1);
        let mut reset: Vec<&String> = resets.map(|(_, name)| name).collect();
        if random.percent(50) {
            random.shuffle(&mut reset);
        }
        if !reset.is_empty() {
            said.extend(line(["reset"]));
        }
        said.extend(reset.into_iter().map(|name| name.clone().into_bytes()));
        said
    }

    /// The conditions of a rule, each as its words.
    fn conditions(&self, random: &mut Random, policy: &Policy, rule: &Rule) -> Vec<Line> {
        let mut said = Vec::new();
        let outputs = self.signals.split_at(policy.inputs.len()).1;
        for (tags, names, condition) in [
            (&policy.inputs, &self.signals[..], rule.input),
            (&policy.outputs, outputs, rule.output),
        ] {
            for (bit, &tag) in tags.iter().enumerate() {
                if condition.care >> bit & 1 == 1 {
                    let on = condition.value >> bit & 1 == 1;
                    said.push(line([&signal(random, tag, &names[bit], on)]));
                }
            }
        }
        for (name, bound) in self.clocks.iter().zip(&rule.bounds) {
            if bound.low != 0 || random.percent(5) {
                said.push(line([name, ">=", &bound.low.to_string()]));
            }
            if bound.high != NO_UPPER_BOUND {
                said.push(line([name, "<=", &bound.high.to_string()]));
            }
        }
        if random.percent(50) {
            random.shuffle(&mut said);
        }
        if said.is_empty() {
            said.push(line(["any"]));
        }
        said
    }
}

/// By its letter or by its name.
fn signal(random: &mut Random, tag: u8, name: &Option<String>, on: bool) -> String {
    let letter = char::from(tag).to_string();
    let said = match name {
        Some(name) if random.percent(70) => name.clone(),
        _ => letter,
    };
    match on {
        true => said,
        false => format!("!{said}"),
    }
}

/// A name that is not taken, and is then.
fn fresh(random: &mut Random, taken: &mut Vec<String>) -> String {
    loop {
        let name = match random.percent(40) {
            true => random.pick(&LIKELY).to_string(),
            false => any_name(random),
        };
        if is_name(name.as_bytes()) && !taken.contains(&name) {
            taken.push(name.clone());
            return name;
        }
    }
}

/// A name of any length, mostly a short one or one of the longest.
pub fn any_name(random: &mut Random) -> String {
    let length = match random.below(10) {
        0..=4 => random.between(1, 4),
        5..=6 => LONGEST_NAME - random.between(0, 1),
        _ => random.between(1, LONGEST_NAME),
    };
    let first = random.pick(b"abcdefghijklmnopqrstuvwxyz");
    let rest = (1..length).map(|_| random.pick(b"abtqz019_"));
    let bytes: Vec<u8> = [first].into_iter().chain(rest).collect();
    String::from_utf8(bytes).expect("letters, digits and underscores")
}
