//! Random rules: live and dying locations, deadlines, windows, resets.

mod parts;

use crate::policy::*;
use crate::random::Random;

/// How the rules of one location are made.
#[derive(Clone, Copy, Debug, PartialEq, Eq)]
enum Style {
    /// Anything that is allowed, often with a rule for all the rest.
    Scattered,
    /// Some events are violations, all others lead on.
    Forbidding,
    /// Wait for a trigger that starts a clock.
    Idle,
    /// An answer is due before the clock has passed a deadline.
    Pending,
    /// An answer is allowed only in a window of the clock, and due in it.
    Window,
    /// Some events lead a location further, the last of which has no rules.
    Chain,
    /// No rule at all.
    Dead,
}

const STYLES: [Style; 7] = [
    Style::Scattered,
    Style::Forbidding,
    Style::Idle,
    Style::Pending,
    Style::Window,
    Style::Chain,
    Style::Dead,
];

/// Rules for a policy whose other sections are as they will be.
pub fn rules_for(random: &mut Random, policy: &Policy) -> Vec<Rule> {
    RuleMaker { random, policy }.all_rules()
}

struct RuleMaker<'a> {
    random: &'a mut Random,
    policy: &'a Policy,
}

impl RuleMaker<'_> {
    fn all_rules(&mut self) -> Vec<Rule> {
        let one_style = self.random.percent(40);
        let style = self.style();
        let crowded = self.random.percent(3);
        let mut rules = Vec::new();
        for location in 0..self.policy.locations() {
            let style = if one_style { style } else { self.style() };
            rules.extend(if crowded {
                self.crowd(location)
            } else {
                self.rules_in(style, location)
            });
        }
        rules.truncate(MAX_RULES);
        rules
    }

    fn style(&mut self) -> Style {
        // Few locations are dead outright; the others should do the dying.
        match self.random.pick(&STYLES) {
            Style::Dead if self.random.percent(60) => Style::Scattered,
            style => style,
        }
    }

    fn rules_in(&mut self, style: Style, location: usize) -> Vec<Rule> {
        match style {
            Style::Scattered => self.scattered(location),
            Style::Forbidding => self.forbidding(location),
            Style::Idle => self.idle(location),
            Style::Pending => self.pending(location),
            Style::Window => self.window(location),
            Style::Chain => self.chain(location),
            Style::Dead => vec![],
        }
    }

    /// So many rules that all the locations together have nearly 256 of them.
    fn crowd(&mut self, location: usize) -> Vec<Rule> {
        let share = MAX_RULES.div_ceil(self.policy.locations());
        (0..share).map(|_| self.scattered_rule(location)).collect()
    }

    fn scattered(&mut self, location: usize) -> Vec<Rule> {
        let count = self.random.between(0, 4);
        let mut rules: Vec<Rule> = (0..count).map(|_| self.scattered_rule(location)).collect();
        if self.random.percent(65) {
            rules.push(Rule {
                reset: self.some_resets(),
                ..open(location, self.some_location())
            });
        }
        rules
    }

    fn scattered_rule(&mut self, location: usize) -> Rule {
        Rule {
            input: self.some_condition(self.policy.input_mask()),
            output: self.some_condition(self.policy.output_mask()),
            reset: self.some_resets(),
            bounds: self.some_bounds(),
            ..open(location, self.some_target())
        }
    }

    fn forbidding(&mut self, location: usize) -> Vec<Rule> {
        let count = self.random.between(1, 3);
        let mut rules = Vec::new();
        for _ in 0..count {
            rules.push(Rule {
                target: VIOLATION,
                ..self.scattered_rule(location)
            });
        }
        rules.push(Rule {
            reset: self.some_resets(),
            ..open(location, self.near_location(location))
        });
        rules
    }

    fn idle(&mut self, location: usize) -> Vec<Rule> {
        let trigger = Rule {
            input: self.some_condition(self.policy.input_mask()),
            output: self.some_condition(self.policy.output_mask()),
            reset: self.policy.clock_mask(),
            ..open(location, self.next_location(location))
        };
        let otherwise = Rule {
            reset: self.some_resets(),
            ..open(location, location)
        };
        vec![trigger, otherwise]
    }

    fn pending(&mut self, location: usize) -> Vec<Rule> {
        let answer = Rule {
            input: self.some_condition(self.policy.input_mask()),
            output: self.some_condition(self.policy.output_mask()),
            reset: self.some_resets(),
            ..open(location, self.near_location(location))
        };
        vec![answer, self.waiting(location)]
    }

    fn window(&mut self, location: usize) -> Vec<Rule> {
        let answer = Rule {
            output: self.some_condition(self.policy.output_mask()),
            reset: self.some_resets(),
            bounds: self.one_bound(Self::some_low),
            ..open(location, self.near_location(location))
        };
        let too_early = Rule {
            reset: 0,
            bounds: [Bound::OPEN; MAX_CLOCKS],
            target: VIOLATION,
            ..answer.clone()
        };
        vec![answer, too_early, self.waiting(location)]
    }

    /// Stays in the location while one clock has not passed a deadline. It
    /// mostly resets nothing, so that the deadline comes.
    fn waiting(&mut self, location: usize) -> Rule {
        Rule {
            reset: if self.random.percent(20) {
                self.some_resets()
            } else {
                0
            },
            bounds: self.one_bound(Self::some_high),
            ..open(location, location)
        }
    }

    fn chain(&mut self, location: usize) -> Vec<Rule> {
        let further = location + 1;
        if further == self.policy.locations() {
            return vec![];
        }
        let mut rules = vec![Rule {
            input: self.some_condition(self.policy.input_mask()),
            output: self.some_condition(self.policy.output_mask()),
            ..open(location, further)
        }];
        if self.random.percent(50) {
            rules.push(Rule {
                bounds: self.some_bounds(),
                ..open(location, self.some_location())
            });
        }
        rules
    }
}

/// A rule for every event and every clock value, without resets.
pub fn open(source: usize, target: usize) -> Rule {
    Rule {
        source: byte(source),
        input: Condition::ANY,
        output: Condition::ANY,
        reset: 0,
        target: byte(target),
        bounds: [Bound::OPEN; MAX_CLOCKS],
    }
}

fn byte(number: usize) -> u8 {
    u8::try_from(number).expect("a location or 255")
}
