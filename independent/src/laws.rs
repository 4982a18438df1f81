//! Laws that joins and runs keep, tried on random policies with the same
//! signals: the order and the grouping of a join do not matter, nor does
//! joining a policy with itself or with the one that permits everything; and
//! a released stream is permitted by every part and comes back unchanged, and
//! passes every part's enforcer without an edit. All of a case is read in the
//! same way; the bytes of a join carry no reading.

mod tally;

use crate::basis::Basis;
use crate::engine::{found_in, refusal_in, Engine};
use crate::events::RuleBook;
use crate::hex::hex;
use crate::moment::STATE_LENGTH;
use crate::parse;
use crate::policies::{self, Family};
use crate::policy::{Policy, MAX_STATES};
use crate::random::Random;
use crate::reading::{Reading, READINGS};
use crate::refusal::Refusal;
pub use tally::LawTally;

/// Four policies with the same signals, a reading for all of them and their
/// joins, and a stream.
pub struct LawCase {
    reading: Reading,
    parts: Vec<Policy>,
    files: Vec<Vec<u8>>,
    unit: Vec<u8>,
    events: Vec<u8>,
}

/// What a file makes of the stream of the case.
#[derive(Clone, Debug, PartialEq, Eq)]
pub enum Behaviour {
    /// Prepare refuses by 11.
    Hopeless,
    Released {
        stream: Vec<u8>,
        state: [u16; STATE_LENGTH],
    },
}

/// All that an engine made of one case, so that two engines can be compared.
pub type Findings = Vec<(Vec<u8>, Behaviour)>;

pub fn case(seed: u64, number: u64) -> LawCase {
    // Apart from the groups of calls, which use the seed itself.
    let mut random = Random::for_group(!seed, number);
    let reading = random.pick(&READINGS);
    let parts = policies::sisters(&mut random, reading, Family::Small, 4);
    let length = random.between(0, 40);
    let mask = parts[0].event_mask();
    LawCase {
        reading,
        files: parts.iter().map(Policy::encode).collect(),
        unit: policies::unit(&parts[0].inputs, &parts[0].outputs).encode(),
        events: (0..length).map(|_| random.byte() & mask).collect(),
        parts,
    }
}

impl LawCase {
    pub fn describe(&self) -> String {
        let files: Vec<String> = self.files.iter().map(|file| hex(file)).collect();
        format!(
            "reading: {}\npolicies:\n{}\nevents: {}",
            self.reading.number(),
            files.join("\n"),
            hex(&self.events)
        )
    }
}

/// Tries every law; the error says which is broken.
pub fn examine(
    engine: &mut dyn Engine,
    case: &LawCase,
    tally: &mut LawTally,
) -> Result<Findings, String> {
    let mut examination = Examination {
        engine,
        case,
        tally,
        findings: Vec::new(),
    };
    examination.all()?;
    examination.engine.kept_to_what_was_lent()?;
    Ok(examination.findings)
}

struct Examination<'a> {
    engine: &'a mut dyn Engine,
    case: &'a LawCase,
    tally: &'a mut LawTally,
    findings: Findings,
}

impl Examination<'_> {
    fn count(&mut self, law: &'static str, hopeless: bool) {
        let mut locations = self.case.parts.iter().flat_map(|part| &part.must_leave);
        let leaving = locations.any(|&left| left);
        let count = self.tally.of(law, self.case.reading);
        *(match (hopeless, leaving) {
            (true, _) => &mut count.hopeless,
            (false, false) => &mut count.resting,
            (false, true) => &mut count.leaving,
        }) += 1;
    }

    fn reading(&self) -> u8 {
        self.case.reading.number()
    }

    fn all(&mut self) -> Result<(), String> {
        let case = self.case;
        let [a, b, c, d] = [0, 1, 2, 3].map(|part| Some(case.files[part].clone()));
        let ab = self.join(&a, &b)?;
        let ba = self.join(&b, &a)?;
        if ab.is_some() != ba.is_some() {
            return Err("order: one join is refused and the other not".to_string());
        }
        self.same("order", &ab, &ba)?;

        let bc = self.join(&b, &c)?;
        let left = self.join(&ab, &c)?;
        let right = self.join(&a, &bc)?;
        self.same("grouping", &left, &right)?;

        let aa = self.join(&a, &a)?;
        self.same("repeat", &aa, &a)?;

        let unit = Some(case.unit.clone());
        let a_unit = self.join(&a, &unit)?;
        let unit_a = self.join(&unit, &a)?;
        self.same("unit after", &a_unit, &a)?;
        self.same("unit before", &unit_a, &a)?;

        self.released(&ab, &[0, 1])?;
        self.released(&left, &[0, 1, 2])?;

        let whole = self.join(&left, &d)?;
        self.kept(&ab, &[&a, &b])?;
        self.kept(&left, &[&a, &b, &ab, &c])?;
        self.kept(&whole, &[&a, &b, &ab, &c, &left, &d])
    }

    /// Where the join is not hopeless, nothing that went into it is, and each
    /// of its parts passes what it releases without an edit.
    fn kept(&mut self, join: &Option<Vec<u8>>, parts: &[&Option<Vec<u8>>]) -> Result<(), String> {
        let Some(file) = join else {
            return Ok(());
        };
        let Behaviour::Released { stream, .. } = self.behaviour(file)? else {
            return Ok(());
        };
        for part in parts {
            let Some(part) = part else {
                return Err("annex: a join is made without one of its parts".to_string());
            };
            let Some(marks) = self.marks(part)? else {
                return Err(format!("annex: {} alone is hopeless", hex(part)));
            };
            match self.run(part, &marks, &stream)? {
                Behaviour::Released { stream: passed, .. } if passed == stream => (),
                other => return Err(format!("annex: {} edits: {other:?}", hex(part))),
            }
        }
        self.count("annex", false);
        Ok(())
    }

    /// Nothing if a part is missing or the join is refused by 13.
    fn join(
        &mut self,
        a: &Option<Vec<u8>>,
        b: &Option<Vec<u8>>,
    ) -> Result<Option<Vec<u8>>, String> {
        let (Some(a), Some(b)) = (a, b) else {
            return Ok(None);
        };
        let mut out = vec![0xEE; 5_974];
        let answer = self.engine.join(a, b, &mut out);
        match refusal_in(answer) {
            0 => {
                out.truncate(found_in(answer));
                Ok(Some(out))
            }
            refusal if refusal == Refusal::JoinTooLarge.number() => Ok(None),
            refusal => Err(format!("join: two valid policies are refused by {refusal}")),
        }
    }

    /// Hopeless together, or the same released stream.
    fn same(
        &mut self,
        law: &'static str,
        one: &Option<Vec<u8>>,
        other: &Option<Vec<u8>>,
    ) -> Result<(), String> {
        let (Some(one), Some(other)) = (one, other) else {
            return Ok(());
        };
        let first = self.behaviour(one)?;
        let second = self.behaviour(other)?;
        let alike = match (&first, &second) {
            (Behaviour::Hopeless, Behaviour::Hopeless) => true,
            (Behaviour::Released { stream: a, .. }, Behaviour::Released { stream: b, .. }) => {
                a == b
            }
            _ => false,
        };
        if !alike {
            return Err(format!("{law}: {first:?} against {second:?}"));
        }
        self.count(law, first == Behaviour::Hopeless);
        Ok(())
    }

    fn behaviour(&mut self, file: &[u8]) -> Result<Behaviour, String> {
        let behaviour = match self.marks(file)? {
            None => Behaviour::Hopeless,
            Some(marks) => self.run(file, &marks, &self.case.events)?,
        };
        self.findings.push((file.to_vec(), behaviour.clone()));
        Ok(behaviour)
    }

    /// Nothing for refusal 11.
    fn marks(&mut self, file: &[u8]) -> Result<Option<Vec<u8>>, String> {
        let states = parse::check(file).map_or(MAX_STATES, |policy| policy.states());
        let mut marks = vec![0xEE; states as usize];
        let reading = self.reading();
        match refusal_in(self.engine.prepare(reading, file, &mut marks)) {
            0 => Ok(Some(marks)),
            refusal if refusal == Refusal::StartNotLive.number() => Ok(None),
            refusal => Err(format!("prepare: a join is refused by {refusal}")),
        }
    }

    fn run(&mut self, file: &[u8], marks: &[u8], events: &[u8]) -> Result<Behaviour, String> {
        let mut state = [0; STATE_LENGTH];
        let mut stream = vec![0xEE; events.len()];
        let basis = Basis::new(self.reading(), file, marks);
        let answer = self.engine.run(basis, &mut state, events, &mut stream);
        if answer != (events.len() as u64) << 8 {
            return Err(format!(
                "run: with the marks of prepare it answers {answer:#x}"
            ));
        }
        Ok(Behaviour::Released { stream, state })
    }

    /// What the join releases, each part permits; it comes back unchanged;
    /// and the two halves, tick by tick, release the same.
    fn released(&mut self, join: &Option<Vec<u8>>, parts: &[usize]) -> Result<(), String> {
        let Some(file) = join else {
            return Ok(());
        };
        let Some(marks) = self.marks(file)? else {
            return Ok(());
        };
        let first = self.run(file, &marks, &self.case.events)?;
        let Behaviour::Released { stream, .. } = &first else {
            return Ok(());
        };
        for &part in parts {
            if !RuleBook::new(&self.case.parts[part], self.case.reading).permits(stream) {
                return Err(format!(
                    "permitted: part {part} does not permit {}",
                    hex(stream)
                ));
            }
        }
        self.count("permitted", false);
        if self.run(file, &marks, stream)? != first {
            return Err(format!("unchanged: {} is changed", hex(stream)));
        }
        self.count("unchanged", false);
        if self.by_halves(file, &marks)? != first {
            return Err("halves: they differ from the run".to_string());
        }
        self.count("halves", false);
        Ok(())
    }

    fn by_halves(&mut self, file: &[u8], marks: &[u8]) -> Result<Behaviour, String> {
        let basis = Basis::new(self.reading(), file, marks);
        let mut state = [0; STATE_LENGTH];
        let mut stream = Vec::new();
        for event in &self.case.events {
            let input = self.engine.input(basis, &state, event & 15);
            let x = found_in(input) as u8;
            let output = self.engine.output(basis, &mut state, x, event >> 4);
            if refusal_in(input) != 0 || refusal_in(output) != 0 {
                return Err(format!("halves: they answer {input:#x} and {output:#x}"));
            }
            stream.push(x | (found_in(output) as u8) << 4);
        }
        Ok(Behaviour::Released { stream, state })
    }
}

#[cfg(test)]
mod tests {
    use super::*;
    use crate::engine::Model;

    #[test]
    fn the_model_keeps_the_laws() {
        let mut tally = LawTally::default();
        for number in 0..1_500 {
            let case = case(3, number);
            if let Err(breach) = examine(&mut Model, &case, &mut tally) {
                panic!("{breach}\n{}", case.describe());
            }
        }
        assert_eq!(tally.laws.len(), 9, "{:?}", tally.laws);
        for count in &tally.laws {
            for tried in count.tried {
                assert!(tried.resting > 50 && tried.leaving > 100, "{count:?}");
            }
        }
    }
}
