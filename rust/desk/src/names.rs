//! What the parts of a policy are called: as its text calls them, or by letter and
//! number as in its file.

use std::cell::OnceCell;

use groovepawn::PolicyText;

use crate::policies::Named;

/// The names of a policy's parts. They are asked for once each: a long run names the
/// same few rules over and over.
pub struct Names<'a> {
    text: Option<&'a PolicyText>,
    clocks: Vec<String>,
    locations: Vec<String>,
    rules: Vec<OnceCell<String>>,
}

impl<'a> Names<'a> {
    pub fn of(named: &'a Named) -> Names<'a> {
        let (policy, text) = (&named.policy, named.text.as_ref());
        Names {
            text,
            clocks: called(policy.ceilings().len(), |clock| text?.name_of_clock(clock)),
            locations: called(policy.locations().len(), |location| {
                text?.name_of_location(location)
            }),
            rules: vec![OnceCell::new(); policy.rules().len()],
        }
    }

    /// Whether the policy is a text, so that its parts have names.
    pub fn are_said(&self) -> bool {
        self.text.is_some()
    }

    /// A clock: its name, or its number.
    pub fn clock(&self, clock: usize) -> &str {
        self.clocks.get(clock).map_or("?", String::as_str)
    }

    /// A location: its name, or its number.
    pub fn location(&self, location: usize) -> &str {
        self.locations.get(location).map_or("?", String::as_str)
    }

    /// A rule by its number, with its line where there is a text.
    pub fn rule(&self, rule: usize) -> &str {
        let Some(kept) = self.rules.get(rule) else {
            return "?";
        };
        kept.get_or_init(|| match self.line(rule) {
            Some(line) => format!("{rule} (line {line})"),
            None => rule.to_string(),
        })
    }

    /// The line of a rule, where there is a text.
    pub fn line(&self, rule: usize) -> Option<usize> {
        self.text?.line_of_rule(rule)
    }
}

/// So many things, each by its name, or by its number where it has none.
fn called<'a>(count: usize, name: impl Fn(usize) -> Option<&'a str>) -> Vec<String> {
    (0..count)
        .map(|number| name(number).map_or_else(|| number.to_string(), str::to_string))
        .collect()
}
