//! A station with a meter.

use crate::answer::{byte, value};
use crate::call::{self, STATE_LEN, STATION_LEN, TOTALS_LEN};
use crate::marks::Marks;
use crate::policy::Policy;
use crate::refusal::Refusal;
use crate::state::State;

/// A station with a meter of 16 bits: input P tells that pulses came, and those that
/// come while output D is on are billed.
///
/// ```
/// use groovepawn::{Meter, Policy, Reading, Totals};
///
/// let policy = Policy::check(&[1, b'P', 1, b'D', 0, 1, 0, 0, 1, 0, 0, 0, 0, 0, 0, 0])?;
/// let (marks, _) = policy.prepare(Reading::AtStart)?;
/// let mut meter = Meter::new(&policy, &marks, 65_530)?;
/// let x = meter.input(4, 0)?; // the register rolled over: 10 pulses
/// assert_eq!(x, 1);
/// assert_eq!(meter.output(4, x, 1), Ok(1));
/// assert_eq!(meter.totals(), Totals { billed: 10, unbilled: 0 });
/// # Ok::<(), groovepawn::Refusal>(())
/// ```
#[derive(Clone, Debug)]
pub struct Meter<'a> {
    policy: &'a Policy,
    marks: &'a Marks,
    station: [u16; STATION_LEN],
    totals: [u32; TOTALS_LEN],
}

/// The pulses so far.
#[derive(Clone, Copy, Debug, PartialEq, Eq)]
pub struct Totals {
    /// Those that came while D was on.
    pub billed: u32,
    /// The others.
    pub unbilled: u32,
}

impl<'a> Meter<'a> {
    /// A station at the start, with the first reading of its register.
    pub fn new(policy: &'a Policy, marks: &'a Marks, register: u16) -> Result<Meter<'a>, Refusal> {
        let (mut station, mut totals) = ([0; STATION_LEN], [0; TOTALS_LEN]);
        value(call::meter_new(&mut station, &mut totals, register))?;
        Ok(Meter {
            policy,
            marks,
            station,
            totals,
        })
    }

    /// The input half, with the register as it is now. Refusals: 26, 10, 16, 15, 17.
    pub fn input(&self, register: u16, x: u8) -> Result<u8, Refusal> {
        byte(call::meter_input(
            self.marks.basis(self.policy),
            &self.station,
            register,
            x,
        ))
    }

    /// The output half, with the same register. Refusals: 26, 10, 16, 15, 17, 27.
    pub fn output(&mut self, register: u16, x: u8, y: u8) -> Result<u8, Refusal> {
        let basis = self.marks.basis(self.policy);
        byte(call::meter_output(
            basis,
            &mut self.station,
            &mut self.totals,
            register,
            x,
            y,
        ))
    }

    /// What was billed, and what not.
    pub fn totals(&self) -> Totals {
        Totals {
            billed: self.totals[0],
            unbilled: self.totals[1],
        }
    }

    /// The register as last accepted.
    pub fn register(&self) -> u16 {
        self.station[STATE_LEN]
    }

    /// The state.
    pub fn state(&self) -> State {
        let mut numbers = [0; STATE_LEN];
        numbers.copy_from_slice(&self.station[..STATE_LEN]);
        State::from(numbers)
    }
}
