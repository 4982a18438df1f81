//! Why a half of an event was edited.

use crate::basis::Basis;
use crate::call::Work;
use crate::enforce::{self, Enforcer};
use crate::graph::{Futures, Graph};
use crate::moment::Moment;
use crate::policy::{Policy, Rule};
use crate::reading::Reading;
use crate::refusal::Refusal;

#[derive(Clone, Copy, Debug, PartialEq, Eq)]
pub enum Reason {
    NotEdited,
    /// "the number (from 0) of the rule that sent it to 255"
    Rule(usize),
    /// "that no rule matched"
    NoRule,
    /// "that the stream could have gone on for at most k more ticks after it"
    Ticks(usize),
    /// "where the stream could go on for ever: with at most k later events
    /// ending at rest"
    Rests(usize),
}

impl Reason {
    pub fn kind(self) -> u64 {
        match self {
            Reason::NotEdited => 0,
            Reason::Rule(_) => 1,
            Reason::NoRule => 2,
            Reason::Ticks(_) => 3,
            Reason::Rests(_) => 4,
        }
    }

    pub fn number(self) -> u64 {
        match self {
            Reason::NotEdited | Reason::NoRule => 0,
            Reason::Rule(number) | Reason::Ticks(number) | Reason::Rests(number) => number as u64,
        }
    }
}

/// A policy read in one way, with how far each of its states can go.
struct Tables<'a> {
    policy: &'a Policy,
    reading: Reading,
    futures: Futures,
}

impl Tables<'_> {
    /// What is to be said against an event that leads to no live state.
    fn against(&self, enforcer: &Enforcer, moment: &Moment, x: u8, y: u8) -> Reason {
        let decides = |rule: &Rule| {
            rule.input.agrees(x) && rule.output.agrees(y) && moment.satisfies(rule, self.reading)
        };
        let Some(number) = self.policy.rules.iter().position(decides) else {
            return Reason::NoRule;
        };
        let Some(next) = moment.after(&self.policy.rules[number]) else {
            return Reason::Rule(number);
        };
        let next = enforcer.numbering.number(&next);
        match self.futures.endless[next] {
            true => Reason::Rests(self.futures.rests[next]),
            false => Reason::Ticks(self.futures.ticks[next]),
        }
    }

    /// "For an input, the greatest k over all outputs, or that every output is
    /// a violation at once, with the reason for the lowest output." A count of
    /// rests "goes before a count of ticks, with the greatest such k".
    fn against_input(&self, enforcer: &Enforcer, moment: &Moment, x: u8) -> Reason {
        let outputs = 0..=self.policy.output_mask();
        let reasons: Vec<Reason> = outputs
            .map(|y| self.against(enforcer, moment, x, y))
            .collect();
        let of_kind = |kind: u64| reasons.iter().filter(move |reason| reason.kind() == kind);
        let rests = of_kind(4).max_by_key(|reason| reason.number());
        let ticks = of_kind(3).max_by_key(|reason| reason.number());
        *rests.or(ticks).unwrap_or(&reasons[0])
    }

    /// The reasons for an event as read, and the moment after it. From a live
    /// state some event leads to a live one, so 17 never comes.
    fn explained(
        &self,
        enforcer: &Enforcer,
        moment: &Moment,
        x: u8,
        y: u8,
    ) -> Result<([Reason; 2], Moment), Refusal> {
        let passed = enforcer.correct_one(moment, x, y);
        let (passed, released, next) = passed.ok_or(Refusal::NothingReachesLive)?;
        let input = match passed == x {
            true => Reason::NotEdited,
            false => self.against_input(enforcer, moment, x),
        };
        let output = match released == y {
            true => Reason::NotEdited,
            false => self.against(enforcer, moment, passed, y),
        };
        Ok(([input, output], next))
    }
}

/// As one number.
pub fn word(reasons: [Reason; 2]) -> u64 {
    let [input, output] = reasons.map(|reason| reason.kind() | reason.number() << 8);
    input << 8 | output << 32
}

/// "marks that are not those of prepare"; how far each state can go.
fn futures(graph: &Graph, marks: &[u8]) -> Result<Futures, Refusal> {
    let right = graph.liveness().marks();
    if marks[..right.len()] != right {
        return Err(Refusal::WrongMarks);
    }
    Ok(graph.futures())
}

/// The reasons for the input and for the output. The output is judged with the
/// input that was passed on.
pub fn why(basis: Basis, state: &[u16], x: u8, y: u8) -> Result<[Reason; 2], Refusal> {
    let (reading, policy) = enforce::read(basis)?;
    let enforcer = Enforcer::new(&policy, reading, basis.marks)?;
    let moment = enforcer.read_state(state)?;
    let futures = futures(&Graph::new(&policy, reading), basis.marks)?;
    enforce::check_bits(x, policy.input_mask())?;
    enforce::check_bits(y, policy.output_mask())?;
    let tables = Tables {
        policy: &policy,
        reading,
        futures,
    };
    Ok(tables.explained(&enforcer, &moment, x, y)?.0)
}

/// What reasons for a run are lent beside the state: the slice for them, and
/// those to work in.
pub struct Told<'a> {
    pub reasons: &'a mut [u64],
    pub ticks: &'a mut [u32],
    pub rests: &'a mut [u32],
    pub prepared: &'a mut [u8],
    pub work: &'a mut Work,
}

impl Told<'_> {
    /// The entries of the shortest slice to work in.
    fn room(&self) -> usize {
        let tables = [self.ticks.len(), self.rests.len(), self.prepared.len()];
        let lengths = tables.into_iter().chain(self.work.iter().map(Vec::len));
        lengths.min().expect("there are eight")
    }
}

/// The reasons for each event of a run at the moment that the run has there,
/// each pair as one number. The state is then that of the run.
pub fn why_run(
    basis: Basis,
    state: &mut [u16],
    events: &[u8],
    told: Told,
) -> Result<usize, Refusal> {
    let (reading, policy) = enforce::read(basis)?;
    let enforcer = Enforcer::new(&policy, reading, basis.marks)?;
    if (told.room() as u64) < policy.states() {
        return Err(Refusal::WorkTooShort);
    }
    if told.reasons.len() < events.len() {
        return Err(Refusal::SliceTooShort);
    }
    let mut moment = enforcer.read_state(state)?;
    let futures = futures(&Graph::new(&policy, reading), basis.marks)?;
    for &event in events {
        enforce::check_bits(event, policy.event_mask())?;
    }
    let tables = Tables {
        policy: &policy,
        reading,
        futures,
    };
    for (place, event) in told.reasons.iter_mut().zip(events) {
        let (reasons, next) = tables.explained(&enforcer, &moment, event & 15, event >> 4)?;
        *place = word(reasons);
        moment = next;
    }
    enforcer.write_state(state, &moment);
    Ok(events.len())
}

#[cfg(test)]
mod tests {
    use super::*;
    use crate::events::RuleBook;
    use crate::policies::{self, Size};
    use crate::random::Random;
    use crate::reading::READINGS;
    use std::collections::HashMap;

    fn outputs_of(policy: &Policy) -> Vec<u8> {
        (0..=policy.output_mask()).collect()
    }

    /// The definition itself, with clocks that never stop: how long permitted
    /// streams from `moment` are, and how many events at rest they have, among
    /// the streams of up to `longest` events. Nothing for a length without end.
    fn by_streams(
        book: &RuleBook,
        policy: &Policy,
        moment: Moment,
        states: usize,
    ) -> (Option<usize>, usize) {
        let mask = policy.event_mask();
        let mut here = HashMap::from([((moment.location, moment.clocks), 0)]);
        let (mut length, mut most) = (0, 0);
        for _ in 0..states * states + 2 {
            let mut next = HashMap::new();
            for ((location, clocks), rested) in here {
                let moment = Moment { location, clocks };
                for event in (0..=255u8).filter(|event| event & !mask == 0) {
                    if let Some(way) = book.follow(&moment, event & 15, event >> 4) {
                        let rested = rested + usize::from(policy.rests_in(way.location));
                        let best = next.entry((way.location, way.clocks)).or_insert(rested);
                        *best = rested.max(*best);
                        most = most.max(rested);
                    }
                }
            }
            if next.is_empty() {
                return (Some(length), most);
            }
            here = next;
            length += 1;
        }
        (None, most)
    }

    /// The reason for one event, by trying streams.
    fn tried(policy: &Policy, reading: Reading, moment: &Moment, x: u8, y: u8) -> Reason {
        let decides = |rule: &Rule| {
            rule.input.agrees(x) && rule.output.agrees(y) && moment.satisfies(rule, reading)
        };
        let Some(number) = policy.rules.iter().position(decides) else {
            return Reason::NoRule;
        };
        let book = RuleBook::new(policy, reading);
        let states = policy.states() as usize;
        match book.follow(moment, x, y) {
            None => Reason::Rule(number),
            Some(next) => match by_streams(&book, policy, next, states) {
                (Some(length), _) => Reason::Ticks(length),
                (None, rests) => Reason::Rests(rests),
            },
        }
    }

    fn for_input(policy: &Policy, reading: Reading, moment: &Moment, x: u8) -> Reason {
        let reasons: Vec<Reason> = outputs_of(policy)
            .into_iter()
            .map(|y| tried(policy, reading, moment, x, y))
            .collect();
        for kind in [4, 3] {
            let numbers = reasons.iter().filter(|reason| reason.kind() == kind);
            if let Some(greatest) = numbers.map(|reason| reason.number()).max() {
                let greatest = greatest as usize;
                return match kind {
                    4 => Reason::Rests(greatest),
                    _ => Reason::Ticks(greatest),
                };
            }
        }
        reasons[0]
    }

    /// Given exactly for an edited half, and true by the definitions.
    #[test]
    fn reasons_are_true_by_streams() {
        let mut random = Random::new(121);
        let mut kinds = [[0; 5]; 2];
        let mut greatest = 0;
        for round in 0..1_200 {
            let policy = match round % 4 {
                0 => policies::adversarial(&mut random),
                1..=2 => policies::trap(&mut random),
                _ => policies::of_size(&mut random, Size::Tiny),
            };
            let reading = random.pick(&READINGS);
            let marks = Graph::new(&policy, reading).liveness().marks();
            if marks.len() > 14 {
                continue;
            }
            let enforcer = Enforcer::new(&policy, reading, &marks).expect("enough marks");
            for number in (0..marks.len()).filter(|&number| marks[number] == 1) {
                let moment = enforcer.numbering.moment(number);
                let state = enforcer.numbering.stopped(&moment);
                let (x, y) = (
                    random.byte() & policy.input_mask(),
                    random.byte() & policy.output_mask(),
                );
                let file = policy.encode();
                let found = why(Basis::new(reading.number(), &file, &marks), &state, x, y);
                let reasons = found.expect("nothing is wrong");
                let (passed, released, _) = enforcer.correct_one(&moment, x, y).expect("live");
                let expected = [
                    match passed == x {
                        true => Reason::NotEdited,
                        false => for_input(&policy, reading, &moment, x),
                    },
                    match released == y {
                        true => Reason::NotEdited,
                        false => tried(&policy, reading, &moment, passed, y),
                    },
                ];
                assert_eq!(reasons, expected, "state {number}, {x}, {y} of {policy:?}");
                for (kinds, reason) in kinds.iter_mut().zip(reasons) {
                    kinds[reason.kind() as usize] += 1;
                    if reason.kind() > 2 {
                        greatest = greatest.max(reason.number());
                    }
                }
            }
        }
        assert!(kinds.iter().flatten().all(|&count| count > 5), "{kinds:?}");
        assert!(greatest > 3, "{greatest}");
    }
}
