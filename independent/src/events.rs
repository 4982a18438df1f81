//! Sets of events, and which events each rule decides.

use crate::moment::Moment;
use crate::policy::{Condition, Policy, Rule};
use crate::reading::Reading;

/// The number of values four signals have.
const VALUES: usize = 16;

/// A set of numbers below 16, one bit each.
pub type Values = u16;

/// A set of events: for each output, the set of the inputs beside it.
#[derive(Clone, Copy, Debug, PartialEq, Eq)]
pub struct EventSet {
    rows: [Values; VALUES],
}

impl EventSet {
    pub const EMPTY: EventSet = EventSet { rows: [0; VALUES] };

    /// The events of `policy` whose input and output meet the two conditions.
    pub fn meeting(policy: &Policy, input: Condition, output: Condition) -> EventSet {
        let inputs = values_meeting(policy.input_mask(), input);
        let outputs = values_meeting(policy.output_mask(), output);
        let mut set = EventSet::EMPTY;
        for (y, row) in set.rows.iter_mut().enumerate() {
            if outputs >> y & 1 == 1 {
                *row = inputs;
            }
        }
        set
    }

    pub fn is_empty(&self) -> bool {
        self.rows.iter().all(|&row| row == 0)
    }

    pub fn without(mut self, other: &EventSet) -> EventSet {
        for (row, gone) in self.rows.iter_mut().zip(&other.rows) {
            *row &= !gone;
        }
        self
    }

    pub fn add(&mut self, other: &EventSet) {
        for (row, more) in self.rows.iter_mut().zip(&other.rows) {
            *row |= more;
        }
    }

    #[cfg(test)]
    pub fn contains(&self, x: u8, y: u8) -> bool {
        self.rows[usize::from(y)] >> x & 1 == 1
    }

    /// The inputs that occur with some output.
    pub fn inputs(&self) -> Values {
        self.rows.iter().fold(0, |all, row| all | row)
    }

    /// The outputs that occur with input `x`.
    pub fn outputs_with(&self, x: u8) -> Values {
        let bit = |y: usize| (self.rows[y] >> x & 1) << y;
        (0..VALUES).fold(0, |all, y| all | bit(y))
    }
}

fn values_meeting(signals: u8, condition: Condition) -> Values {
    let possible = (0..=signals).filter(|&value| condition.agrees(value));
    possible.fold(0, |all, value| all | 1 << value)
}

/// The rules of a policy by location, each with the events its care bits admit,
/// and how its clocks are read.
pub struct RuleBook<'a> {
    reading: Reading,
    by_location: Vec<Vec<(&'a Rule, EventSet)>>,
}

impl<'a> RuleBook<'a> {
    pub fn new(policy: &'a Policy, reading: Reading) -> RuleBook<'a> {
        let mut by_location = vec![Vec::new(); policy.locations()];
        for rule in &policy.rules {
            let events = EventSet::meeting(policy, rule.input, rule.output);
            by_location[usize::from(rule.source)].push((rule, events));
        }
        RuleBook {
            reading,
            by_location,
        }
    }

    /// Calls `each` with every rule that decides some event at `moment`, and
    /// with the events it decides: those that no earlier rule took.
    pub fn for_each_share(&self, moment: &Moment, mut each: impl FnMut(&'a Rule, &EventSet)) {
        let mut taken = EventSet::EMPTY;
        for (rule, events) in &self.by_location[usize::from(moment.location)] {
            if !moment.satisfies(rule, self.reading) {
                continue;
            }
            let share = events.without(&taken);
            if !share.is_empty() {
                each(rule, &share);
                taken.add(&share);
            }
        }
    }

    /// Where one event leads, or nothing for a violation.
    pub fn follow(&self, moment: &Moment, x: u8, y: u8) -> Option<Moment> {
        let rules = &self.by_location[usize::from(moment.location)];
        let agrees = |rule: &&Rule| rule.input.agrees(x) && rule.output.agrees(y);
        let mut agreeing = rules.iter().map(|&(rule, _)| rule).filter(agrees);
        let deciding = agreeing.find(|rule| moment.satisfies(rule, self.reading))?;
        moment.after(deciding)
    }

    /// Where a stream leads from the start, with clocks that never stop;
    /// nothing if an event of it meets a violation.
    pub fn follow_all(&self, stream: &[u8]) -> Option<Moment> {
        let follow = |moment: Moment, event: &u8| self.follow(&moment, event & 15, event >> 4);
        stream.iter().try_fold(Moment::START, follow)
    }

    pub fn permits(&self, stream: &[u8]) -> bool {
        self.follow_all(stream).is_some()
    }
}

#[cfg(test)]
mod tests {
    use super::*;
    use crate::moment::Numbering;
    use crate::policies;
    use crate::random::Random;
    use crate::reading::READINGS;

    /// The shares are worked out with sets, `follow` with one event at a time:
    /// they must say the same.
    #[test]
    fn shares_and_single_events_agree() {
        let mut random = Random::new(21);
        for _ in 0..300 {
            let policy = policies::any(&mut random);
            let book = RuleBook::new(&policy, random.pick(&READINGS));
            let numbering = Numbering::new(&policy);
            let number = random.below(numbering.states() as u64) as usize;
            let moment = numbering.moment(number);
            let mut by_event = [None; 256];
            book.for_each_share(&moment, |rule, share| {
                for event in 0..=255u8 {
                    if share.contains(event & 15, event >> 4) {
                        by_event[usize::from(event)] = moment.after(rule);
                    }
                }
            });
            for event in (0..=255u8).filter(|event| event & !policy.event_mask() == 0) {
                let followed = book.follow(&moment, event & 15, event >> 4);
                assert_eq!(by_event[usize::from(event)], followed);
            }
        }
    }

    #[test]
    fn rows_and_columns_of_a_set() {
        let mut set = EventSet::EMPTY;
        set.rows[2] = 0b0110;
        set.rows[5] = 0b0010;
        assert_eq!(set.inputs(), 0b0110);
        assert_eq!(set.outputs_with(1), 1 << 2 | 1 << 5);
        assert_eq!(set.outputs_with(2), 1 << 2);
        assert_eq!(set.outputs_with(3), 0);
    }
}
