//! Several bays over one policy and one set of marks.

use crate::answer::{byte, value};
use crate::call::{self, STATE_LEN};
use crate::marks::Marks;
use crate::policy::Policy;
use crate::refusal::Refusal;
use crate::state::State;

/// One to eight bays, each with a state of its own.
///
/// ```
/// use groovepawn::{Bays, Policy, Reading};
///
/// let policy = Policy::check(&[0, 1, b'D', 0, 1, 0, 0, 1, 0, 0, 0, 0, 0, 0, 0])?;
/// let (marks, _) = policy.prepare(Reading::AtStart)?;
/// let mut bays = Bays::new(&policy, &marks, 3)?;
/// let x = bays.input(2, 0)?;
/// assert_eq!(bays.output(2, x, 1), Ok(1));
/// assert_eq!(bays.input(3, 0).unwrap_err().number(), 24);
/// assert_eq!(Bays::new(&policy, &marks, 9).unwrap_err().number(), 25);
/// # Ok::<(), groovepawn::Refusal>(())
/// ```
#[derive(Clone, Debug)]
pub struct Bays<'a> {
    policy: &'a Policy,
    marks: &'a Marks,
    states: Vec<u16>,
}

impl<'a> Bays<'a> {
    /// So many bays, each at the start. Refusals: 25 for 0 or above 8.
    pub fn new(policy: &'a Policy, marks: &'a Marks, count: usize) -> Result<Bays<'a>, Refusal> {
        // A count above all that can be is one above 8 too.
        let mut states = vec![0; STATE_LEN * count.min(9)];
        value(call::bays_new(&mut states))?;
        Ok(Bays {
            policy,
            marks,
            states,
        })
    }

    /// The input half of a tick of this bay, counted from 0. Refusals: 10, 24, 16, 15, 17.
    pub fn input(&self, bay: u32, x: u8) -> Result<u8, Refusal> {
        byte(call::bay_input(
            self.marks.basis(self.policy),
            &self.states,
            bay,
            x,
        ))
    }

    /// Its output half; the state of this bay moves. Refusals: 10, 24, 16, 15, 17.
    pub fn output(&mut self, bay: u32, x: u8, y: u8) -> Result<u8, Refusal> {
        byte(call::bay_output(
            self.marks.basis(self.policy),
            &mut self.states,
            bay,
            x,
            y,
        ))
    }

    /// The state of a bay, if there is one.
    pub fn state(&self, bay: usize) -> Option<State> {
        let numbers = self.states.chunks_exact(STATE_LEN).nth(bay)?;
        Some(State::from(<[u16; STATE_LEN]>::try_from(numbers).ok()?))
    }
}
