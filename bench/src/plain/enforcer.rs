//! The two halves and the run.

use super::policy::{Policy, Rules};
use super::refusal::Refusal;
use super::rule::Rule;
use super::sets::{all_below, is_in, Sets};
use super::state::{Clocks, State};
use crate::basis::Basis;

/// How a run ended.
#[derive(Clone, Copy, Debug, PartialEq, Eq)]
pub struct RunEnd {
    pub refusal: Option<Refusal>,
    pub released: usize,
}

pub fn input(basis: Basis, state: &[u16], x: u8) -> Result<u8, Refusal> {
    let policy = Policy::read(basis.reading, basis.file)?;
    let enforcer = Enforcer::checked(&policy, basis.marks)?;
    let moment = enforcer.moment(state)?;
    check_value(x, policy.input_values())?;
    moment.choose_input(x).ok_or(Refusal::NothingReachesLive)
}

/// Changes the state in place; a refusal leaves it as it was.
pub fn output(basis: Basis, state: &mut [u16], x: u8, y: u8) -> Result<u8, Refusal> {
    let policy = Policy::read(basis.reading, basis.file)?;
    let enforcer = Enforcer::checked(&policy, basis.marks)?;
    let moment = enforcer.moment(state)?;
    check_value(x, policy.input_values())?;
    check_value(y, policy.output_values())?;
    let (released, next) = moment.output(x, y).ok_or(Refusal::NothingReachesLive)?;
    next.write(state);
    Ok(released)
}

/// The error is a refusal before the first event. A 17 is in the end, and leaves
/// what was released before it and the state there.
pub fn run(
    basis: Basis,
    state: &mut [u16],
    events: &[u8],
    released: &mut [u8],
) -> Result<RunEnd, Refusal> {
    let policy = Policy::read(basis.reading, basis.file)?;
    let enforcer = Enforcer::checked(&policy, basis.marks)?;
    if released.len() < events.len() {
        return Err(Refusal::SliceTooShort);
    }
    let start = enforcer.read_marked(state)?;
    for event in events {
        check_value(event & 15, policy.input_values())?;
        check_value(event >> 4, policy.output_values())?;
    }
    let (end, after) = enforcer.release(start, events, released);
    after.write(state);
    Ok(end)
}

fn check_value(value: u8, values: u8) -> Result<(), Refusal> {
    match value < values {
        true => Ok(()),
        false => Err(Refusal::BeyondSignals),
    }
}

/// A policy with its marks as they are given.
#[derive(Clone, Copy)]
pub struct Enforcer<'a> {
    policy: &'a Policy<'a>,
    marks: &'a [u8],
}

impl<'a> Enforcer<'a> {
    /// There are as many marks as states, or more.
    pub fn new(policy: &'a Policy<'a>, marks: &'a [u8]) -> Enforcer<'a> {
        Enforcer { policy, marks }
    }

    fn checked(policy: &'a Policy<'a>, marks: &'a [u8]) -> Result<Enforcer<'a>, Refusal> {
        match marks.len() < policy.states {
            true => Err(Refusal::MarksTooShort),
            false => Ok(Enforcer::new(policy, marks)),
        }
    }

    fn is_marked(&self, state: State) -> bool {
        self.marks[state.number(self.policy)] == 1
    }

    fn read_marked(&self, lent: &[u16]) -> Result<State, Refusal> {
        let state = State::read(self.policy, lent)?;
        match self.is_marked(state) {
            true => Ok(state),
            false => Err(Refusal::BadState),
        }
    }

    fn moment(&self, lent: &[u16]) -> Result<Moment<'a>, Refusal> {
        Ok(self.at(self.read_marked(lent)?))
    }

    /// Finds the rules of the state's location, once for all events tried.
    fn at(self, state: State) -> Moment<'a> {
        self.with(state, self.policy.rules.of(state.location()))
    }

    /// `own` are the rules of the state's location.
    pub fn with(self, state: State, own: Rules<'a>) -> Moment<'a> {
        Moment {
            seen: state.seen(self.policy),
            enforcer: self,
            state,
            own,
        }
    }

    /// Corrects tick by tick until the events end or nothing may stand. The
    /// rules of each location are found before the first tick.
    // Kept a function of its own: then the checks before it cost a tick nothing.
    #[inline(never)]
    fn release(&self, start: State, events: &[u8], released: &mut [u8]) -> (RunEnd, State) {
        let rules = self.policy.rules.by_location();
        let mut state = start;
        for (count, (event, out)) in events.iter().zip(released).enumerate() {
            let moment = self.with(state, rules[usize::from(state.location())]);
            let Some((x, y, next)) = moment.correct(event & 15, event >> 4) else {
                let end = RunEnd {
                    refusal: Some(Refusal::NothingReachesLive),
                    released: count,
                };
                return (end, state);
            };
            *out = x | y << 4;
            state = next;
        }
        let end = RunEnd {
            refusal: None,
            released: events.len(),
        };
        (end, state)
    }
}

/// A state with the rules of its location, and the clock values that their
/// bounds are tested against.
pub struct Moment<'a> {
    enforcer: Enforcer<'a>,
    state: State,
    seen: Clocks,
    own: Rules<'a>,
}

impl Moment<'_> {
    /// The next state by the first of the rules that admits the event; nothing
    /// for a violation.
    fn step(&self, x: u8, y: u8) -> Option<State> {
        let seen = self.seen;
        self.own
            .iter()
            .find(|rule| rule.admits(x, y, &seen))
            .and_then(|rule| self.state.by(self.enforcer.policy, rule))
    }

    /// The state after the event, if it is marked 1.
    fn arrival(&self, x: u8, y: u8) -> Option<State> {
        self.step(x, y)
            .filter(|&next| self.enforcer.is_marked(next))
    }

    fn reaches(&self, x: u8, y: u8) -> bool {
        self.arrival(x, y).is_some()
    }

    /// Whether the rule leads to a state marked 1.
    fn leads(&self, rule: Rule) -> bool {
        self.state
            .by(self.enforcer.policy, rule)
            .is_some_and(|next| self.enforcer.is_marked(next))
    }

    /// The rules whose bounds hold.
    fn holding(&self) -> impl Iterator<Item = Rule<'_>> {
        let seen = self.seen;
        self.own.iter().filter(move |rule| rule.holds(&seen))
    }

    /// No event is taken yet.
    fn room(&self) -> Sets {
        let policy = self.enforcer.policy;
        Sets::full(policy.input_values(), policy.output_values())
    }

    /// For each input the outputs that lead to a state marked 1.
    fn allowed(&self) -> Sets {
        let mut left = self.room();
        let mut found = Sets::EMPTY;
        for rule in self.holding() {
            let taken = left.take(rule.input(), rule.output());
            if !taken.is_empty() && self.leads(rule) {
                found.add(taken);
            }
        }
        found
    }

    /// The outputs that with x lead to a state marked 1.
    fn row(&self, x: u8) -> u16 {
        let mut left = all_below(self.enforcer.policy.output_values());
        let mut found = 0;
        let seen = self.seen;
        for rule in self.own.iter() {
            if !rule.input().agrees(x) || !rule.holds(&seen) {
                continue;
            }
            let taken = left & rule.output().values();
            if taken != 0 && self.leads(rule) {
                found |= taken;
            }
            left ^= taken;
        }
        found
    }

    fn input_stands(&self, x: u8) -> bool {
        self.reaches(x, 0) || self.row(x) != 0
    }

    /// Whether any event leads to a state marked 1.
    pub fn goes_on(&self) -> bool {
        if self.reaches(0, 0) {
            return true;
        }
        let mut left = self.room();
        self.holding().any(|rule| {
            let taken = left.take(rule.input(), rule.output());
            !taken.is_empty() && self.leads(rule)
        })
    }

    fn choose_input(&self, x: u8) -> Option<u8> {
        if self.input_stands(x) {
            return Some(x);
        }
        let values = self.enforcer.policy.input_values();
        nearest(x, values, self.allowed().not_empty())
    }

    /// The output among those that go with the input passed on, and the state
    /// after it.
    fn output(&self, x: u8, y: u8) -> Option<(u8, State)> {
        if let Some(next) = self.arrival(x, y) {
            return Some((y, next));
        }
        let values = self.enforcer.policy.output_values();
        let y = nearest(y, values, self.row(x))?;
        Some((y, self.step(x, y).expect("a chosen event is permitted")))
    }

    /// The input is fixed first, without seeing the output. An event that
    /// leads to a marked state as it is read is what both halves keep.
    fn correct(&self, x: u8, y: u8) -> Option<(u8, u8, State)> {
        if let Some(next) = self.arrival(x, y) {
            return Some((x, y, next));
        }
        let x = self.choose_input(x)?;
        let (y, next) = self.output(x, y)?;
        Some((x, y, next))
    }
}

/// The value in the set that differs from the wanted one in the fewest bits,
/// and of those the one that keeps the first signals.
fn nearest(wanted: u8, values: u8, set: u16) -> Option<u8> {
    let mut best = None;
    let mut least = (u32::MAX, u8::MAX);
    for value in 0..values {
        let changed = value ^ wanted;
        // The first signal is the lowest bit, and weighs most.
        let rank = (changed.count_ones(), changed.reverse_bits());
        if rank < least && is_in(set, value) {
            best = Some(value);
            least = rank;
        }
    }
    best
}
