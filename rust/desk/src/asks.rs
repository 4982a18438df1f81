//! Rules and reasons in words.

use groovepawn::{Bounds, Reason, Rule, Target};

use crate::names::Names;
use crate::policies::Named;
use crate::signals::Signals;

/// The rules and names of a policy, taken apart once.
pub struct Asks<'a> {
    signals: Signals,
    pub names: Names<'a>,
    pub rules: Vec<Rule>,
}

impl<'a> Asks<'a> {
    pub fn of(named: &'a Named) -> Asks<'a> {
        Asks {
            signals: Signals::of(named),
            names: Names::of(named),
            rules: named.policy.rules(),
        }
    }

    /// Why an input was edited. A rule, or that there is none, is the reason only
    /// where no output will do, and is then that for the output 0.
    pub fn input(&self, reason: Reason) -> String {
        match reason {
            Reason::Rule(_) | Reason::NoRule => {
                format!("no output will do; with none on, {}", self.output(reason))
            }
            _ => self.output(reason),
        }
    }

    /// Why an output was edited.
    pub fn output(&self, reason: Reason) -> String {
        match reason {
            Reason::Rule(number) => {
                let rule = self.names.rule(number);
                match self.rules.get(number) {
                    Some(asked) => format!("rule {rule} forbids it: {}", self.asked(asked)),
                    None => format!("rule {rule} forbids it"),
                }
            }
            Reason::NoRule => "no rule allows it".to_string(),
            Reason::TicksLeft(1) => "after it at most 1 more tick".to_string(),
            Reason::TicksLeft(ticks) => format!("after it at most {ticks} more ticks"),
            Reason::RestsLeft(0) => "after it never at rest again".to_string(),
            Reason::RestsLeft(1) => "after it at most 1 more time at rest".to_string(),
            Reason::RestsLeft(rests) => format!("after it at most {rests} more times at rest"),
        }
    }

    /// What a rule asks, as `docs/WHY.md` has it.
    fn asked(&self, rule: &Rule) -> String {
        let mut parts = vec![format!(
            "at location {}",
            self.names.location(rule.source.into())
        )];
        for (on, word) in [(true, "on"), (false, "off")] {
            let names = self.asked_to_be(rule, on);
            if !names.is_empty() {
                parts.push(format!("{} {word}", names.join(" ")));
            }
        }
        for (clock, bounds) in rule.bounds.iter().enumerate() {
            let clock = self.names.clock(clock);
            match *bounds {
                Bounds {
                    low,
                    high: Some(high),
                } => parts.push(format!("clock {clock} from {low} to {high}")),
                Bounds { low: 0, high: None } => {}
                Bounds { low, high: None } => parts.push(format!("clock {clock} from {low} on")),
            }
        }
        parts.join(", ")
    }

    /// A rule as a line of a policy's text: conditions, target, resets.
    pub fn line(&self, rule: &Rule) -> String {
        let mut words = Vec::new();
        let all = rule.input_care | rule.output_care << 4;
        let on = rule.input_value | rule.output_value << 4;
        for signal in self.signals.all() {
            if all & signal.bit != 0 {
                let not = if on & signal.bit != 0 { "" } else { "!" };
                words.push(format!("{not}{}", signal.name));
            }
        }
        for (clock, bounds) in rule.bounds.iter().enumerate() {
            let clock = self.clock_word(clock);
            if bounds.low > 0 {
                words.push(format!("{clock} >= {}", bounds.low));
            }
            if let Some(high) = bounds.high {
                words.push(format!("{clock} <= {high}"));
            }
        }
        if words.is_empty() {
            words.push("any".to_string());
        }
        let target = match rule.target {
            Target::Location(location) => self.location_word(location.into()),
            Target::Violation => "violation".to_string(),
        };
        let mut line = format!("{} -> {target}", words.join(" "));
        let resets: Vec<String> = (0..rule.bounds.len())
            .filter(|clock| rule.resets >> clock & 1 == 1)
            .map(|clock| format!(" {}", self.clock_word(clock)))
            .collect();
        if !resets.is_empty() {
            line.push_str(" reset");
            line.push_str(&resets.concat());
        }
        line
    }

    /// A clock as a text writes it: by its name, or by the one that `show` gives it.
    fn clock_word(&self, clock: usize) -> String {
        self.word('t', self.names.clock(clock))
    }

    /// A location as a text writes it.
    fn location_word(&self, location: usize) -> String {
        self.word('q', self.names.location(location))
    }

    fn word(&self, letter: char, name: &str) -> String {
        if self.names.are_said() {
            name.to_string()
        } else {
            format!("{letter}{name}")
        }
    }

    /// The signals that a rule asks to be on, or off.
    fn asked_to_be(&self, rule: &Rule, on: bool) -> Vec<&str> {
        let value = rule.input_value | rule.output_value << 4;
        let care = rule.input_care | rule.output_care << 4;
        let asked = care & if on { value } else { !value };
        let signals = self.signals.all().iter();
        signals
            .filter(|signal| asked & signal.bit != 0)
            .map(|signal| &*signal.name)
            .collect()
    }
}
