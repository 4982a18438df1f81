//! A station: a prepared policy at a state.

use crate::answer::{byte, value};
use crate::call::{self, Basis};
use crate::index::Index;
use crate::marks::Marks;
use crate::policy::Policy;
use crate::reason::{Reasons, WhyRoom};
use crate::refusal::Refusal;
use crate::state::State;

/// A policy, its marks, and the state that it is in.
#[derive(Clone, Debug)]
pub struct Station<'a> {
    policy: &'a Policy,
    marks: &'a Marks,
    state: State,
}

/// What a run released.
#[derive(Clone, Debug, PartialEq, Eq)]
pub struct Run {
    /// How many events stand in the slice that was lent.
    pub released: usize,
    /// Refusal 17, if the run stopped before its end.
    pub stopped: Option<Refusal>,
}

impl<'a> Station<'a> {
    /// A station at the start.
    pub fn new(policy: &'a Policy, marks: &'a Marks) -> Station<'a> {
        Station::at(policy, marks, State::START)
    }

    /// A station at a state that was kept.
    pub fn at(policy: &'a Policy, marks: &'a Marks, state: State) -> Station<'a> {
        Station {
            policy,
            marks,
            state,
        }
    }

    /// The state.
    pub fn state(&self) -> State {
        self.state
    }

    /// The input half of a tick: the input that the controller is to see. Nothing
    /// moves. Refusals: 10, 16, 15, 17.
    pub fn input(&self, x: u8) -> Result<u8, Refusal> {
        byte(call::input(self.basis(), &self.state.numbers, x))
    }

    /// The output half, given what the input half gave and the controller's answer:
    /// the output to put out. The state moves. Refusals: 10, 16, 15, 17.
    pub fn output(&mut self, x: u8, y: u8) -> Result<u8, Refusal> {
        byte(call::output(self.basis(), &mut self.state.numbers, x, y))
    }

    /// The input half by an index. Refusals: 28 before those of [`Station::input`].
    pub fn input_indexed(&self, index: &Index, x: u8) -> Result<u8, Refusal> {
        byte(call::input_indexed(
            self.basis(),
            &index.numbers,
            &self.state.numbers,
            x,
        ))
    }

    /// The output half by an index. Refusals: 28 before those of [`Station::output`].
    ///
    /// ```
    /// # use groovepawn::{Index, Policy, Reading, Station};
    /// let policy = Policy::check(&[0, 1, b'D', 0, 1, 0, 0, 1, 0, 0, 0, 0, 0, 0, 0])?;
    /// let (marks, _) = policy.prepare(Reading::AtStart)?;
    /// let index = policy.index();
    /// let mut station = Station::new(&policy, &marks);
    /// let x = station.input_indexed(&index, 0)?;
    /// assert_eq!(station.output_indexed(&index, x, 1), Ok(1));
    /// let wrong = Index::from_numbers([7; 128]);
    /// assert_eq!(station.input_indexed(&wrong, 0).unwrap_err().number(), 28);
    /// # Ok::<(), groovepawn::Refusal>(())
    /// ```
    pub fn output_indexed(&mut self, index: &Index, x: u8, y: u8) -> Result<u8, Refusal> {
        let basis = self.basis();
        byte(call::output_indexed(
            basis,
            &index.numbers,
            &mut self.state.numbers,
            x,
            y,
        ))
    }

    /// Many ticks: for each event one is released, and the state moves. Refusals: 10,
    /// 14, 16, 15. With 17, which never comes with marks of prepare and a live state,
    /// what was released before it stands, and [`Run::stopped`] has it.
    ///
    /// ```
    /// # use groovepawn::{Policy, Reading, Station};
    /// // K: credit only while the clock is at most 2.
    /// let policy = Policy::check(&[
    ///     0, 1, b'K', 1, 0, 3, 1, 0, 0, 2, //
    ///     0, 0, 0, 1, 1, 0, 255, 0, 3, 255, 255, //
    ///     0, 0, 0, 0, 0, 0, 0, 0, 0, 255, 255,
    /// ])?;
    /// let (marks, _) = policy.prepare(Reading::AtStart)?;
    /// let mut released = [0; 4];
    /// Station::new(&policy, &marks).run(&[0x00, 0x00, 0x10, 0x10], &mut released)?;
    /// assert_eq!(released, [0x00, 0x00, 0x10, 0x00]);
    /// # Ok::<(), groovepawn::Refusal>(())
    /// ```
    pub fn run(&mut self, events: &[u8], released: &mut [u8]) -> Result<Run, Refusal> {
        let answer = call::run(self.basis(), &mut self.state.numbers, events, released);
        let count = (answer >> 8) as usize;
        match Refusal::of_answer(answer) {
            Some(refusal) if refusal.number() != 17 => Err(refusal),
            stopped => Ok(Run {
                released: count,
                stopped,
            }),
        }
    }

    /// Why the halves of an event as read would be edited here. Nothing moves.
    /// Refusals: 10, 16, 20, 15. It takes 1.25 MB of stack.
    ///
    /// ```
    /// # use groovepawn::{Policy, Reading, Reason, Station};
    /// # let policy = Policy::check(&[
    /// #     1, b'A', 1, b'B', 0, 2, 0, 0, 0, 2, 0, 1, 1, 0, 0, 0, 1, 0, 0, 0, 0, 0, 0, 0,
    /// # ])?;
    /// let (marks, _) = policy.prepare(Reading::AtStart)?;
    /// let reasons = Station::new(&policy, &marks).why(1, 0)?;
    /// assert_eq!(reasons.input, Some(Reason::TicksLeft(0)));
    /// assert_eq!(reasons.output, None);
    /// # Ok::<(), groovepawn::Refusal>(())
    /// ```
    pub fn why(&self, x: u8, y: u8) -> Result<Reasons, Refusal> {
        let answer = call::why(self.basis(), &self.state.numbers, x, y);
        value(answer).map(|_| Reasons::of_answer(answer))
    }

    /// The reasons for a run of events, written into the room that is lent. The state
    /// moves as with [`Station::run`], so that a long record can be handed over in
    /// pieces. Refusals: 10, 23, 16, 20, 15.
    ///
    /// ```
    /// # use groovepawn::{Policy, Reading, Station, WhyRoom};
    /// # let policy = Policy::check(&[
    /// #     1, b'A', 1, b'B', 0, 2, 0, 0, 0, 2, 0, 1, 1, 0, 0, 0, 1, 0, 0, 0, 0, 0, 0, 0,
    /// # ])?;
    /// let (marks, _) = policy.prepare(Reading::AtStart)?;
    /// let mut room = WhyRoom::new(&policy, 2);
    /// let reasons = Station::new(&policy, &marks).why_run(&[0x01, 0x10], &mut room)?;
    /// let edited: Vec<bool> = reasons.map(|reasons| reasons.input.is_some()).collect();
    /// assert_eq!(edited, [true, false]);
    /// # Ok::<(), groovepawn::Refusal>(())
    /// ```
    pub fn why_run<'r>(
        &mut self,
        events: &[u8],
        room: &'r mut WhyRoom,
    ) -> Result<impl Iterator<Item = Reasons> + 'r, Refusal> {
        room.make_place_for(events.len());
        let basis = self.basis();
        let state = &mut self.state.numbers;
        value(call::why_run(
            basis,
            state,
            events,
            &mut room.reasons,
            &mut room.work,
        ))?;
        Ok(room.reasons[..events.len()]
            .iter()
            .map(|&answer| Reasons::of_answer(answer)))
    }

    /// What is lent for reading lives as long as policy and marks, so that the state
    /// can be lent for writing beside it.
    fn basis(&self) -> Basis<'a> {
        self.marks.basis(self.policy)
    }
}
