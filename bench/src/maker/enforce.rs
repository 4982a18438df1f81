//! One tick and many, every event tried by itself.

use super::unpack::{Rule, Table, CLOCKS, VIOLATION};
use crate::plain::{Refusal, RunEnd};

#[derive(Clone, Copy)]
pub struct State {
    pub location: usize,
    pub clocks: [u16; CLOCKS],
}

impl State {
    fn read(table: &Table, marks: &[u8], lent: &[u16]) -> Result<State, Refusal> {
        if lent.len() != 1 + CLOCKS {
            return Err(Refusal::BadState);
        }
        let mut state = State {
            location: lent[0].into(),
            clocks: [0; CLOCKS],
        };
        if state.location >= table.location_count {
            return Err(Refusal::BadState);
        }
        for clock in 0..CLOCKS {
            if lent[1 + clock] > table.ceilings[clock] {
                return Err(Refusal::BadState);
            }
            state.clocks[clock] = lent[1 + clock];
        }
        match marks[state.number(table)] {
            1 => Ok(state),
            _ => Err(Refusal::BadState),
        }
    }

    fn write(self, lent: &mut [u16]) {
        lent[0] = self.location as u16;
        lent[1..].copy_from_slice(&self.clocks);
    }

    pub fn number(self, table: &Table) -> usize {
        let mut number = self.location;
        for clock in 0..table.clocks {
            number =
                number * (usize::from(table.ceilings[clock]) + 1) + usize::from(self.clocks[clock]);
        }
        number
    }

    pub fn numbered(table: &Table, number: usize) -> State {
        let mut rest = number;
        let mut clocks = [0; CLOCKS];
        for clock in (0..table.clocks).rev() {
            let values = usize::from(table.ceilings[clock]) + 1;
            clocks[clock] = (rest % values) as u16;
            rest /= values;
        }
        State {
            location: rest,
            clocks,
        }
    }

    /// The state after the event; none for a violation.
    pub fn step(&self, table: &Table, x: u8, y: u8) -> Option<State> {
        let location = &table.locations[self.location];
        for rule in &table.rules[usize::from(location.first)..usize::from(location.end)] {
            if self.fires(table, rule, x, y) {
                return match rule.target {
                    VIOLATION => None,
                    target => Some(self.after(table, rule, target)),
                };
            }
        }
        None
    }

    fn fires(&self, table: &Table, rule: &Rule, x: u8, y: u8) -> bool {
        if x & rule.input_care != rule.input_value || y & rule.output_care != rule.output_value {
            return false;
        }
        for clock in 0..table.clocks {
            let mut value = self.clocks[clock];
            if table.counted && value < table.ceilings[clock] {
                value += 1;
            }
            if value < rule.low[clock] || rule.high[clock] < value {
                return false;
            }
        }
        true
    }

    fn after(&self, table: &Table, rule: &Rule, target: u8) -> State {
        let mut next = State {
            location: target.into(),
            clocks: [0; CLOCKS],
        };
        for clock in 0..table.clocks {
            if rule.reset >> clock & 1 == 0 {
                next.clocks[clock] = (self.clocks[clock] + 1).min(table.ceilings[clock]);
            }
        }
        next
    }

    /// The state after the event, if it is marked 1.
    fn arrival(&self, table: &Table, marks: &[u8], x: u8, y: u8) -> Option<State> {
        self.step(table, x, y)
            .filter(|next| marks[next.number(table)] == 1)
    }

    /// Whether the input may stand: some output saves it.
    pub fn some_output(&self, table: &Table, marks: &[u8], x: u8) -> bool {
        (0..1 << table.outputs).any(|y| self.arrival(table, marks, x, y).is_some())
    }

    fn choose_input(&self, table: &Table, marks: &[u8], x: u8) -> Option<u8> {
        nearest(x, table.inputs, |x| self.some_output(table, marks, x))
    }

    fn choose_output(&self, table: &Table, marks: &[u8], x: u8, y: u8) -> Option<u8> {
        nearest(y, table.outputs, |y| {
            self.arrival(table, marks, x, y).is_some()
        })
    }
}

/// The value that may stand and differs from the wanted one in the fewest bits;
/// of those the one that keeps the first signals.
fn nearest(wanted: u8, signals: usize, mut stands: impl FnMut(u8) -> bool) -> Option<u8> {
    if stands(wanted) {
        return Some(wanted);
    }
    let mut best = None;
    let mut least = (u32::MAX, u8::MAX);
    for value in 0..1 << signals {
        let changed: u8 = value ^ wanted;
        let rank = (changed.count_ones(), changed.reverse_bits());
        if rank < least && stands(value) {
            best = Some(value);
            least = rank;
        }
    }
    best
}

/// A policy with marks for all its states.
fn marked(table: &Table, marks: &[u8]) -> Result<(), Refusal> {
    match marks.len() < table.states {
        true => Err(Refusal::MarksTooShort),
        false => Ok(()),
    }
}

fn within(value: u8, signals: usize) -> Result<(), Refusal> {
    match value >> signals {
        0 => Ok(()),
        _ => Err(Refusal::BeyondSignals),
    }
}

pub fn input(table: &Table, marks: &[u8], state: &[u16], x: u8) -> Result<u8, Refusal> {
    marked(table, marks)?;
    let state = State::read(table, marks, state)?;
    within(x, table.inputs)?;
    let chosen = state.choose_input(table, marks, x);
    chosen.ok_or(Refusal::NothingReachesLive)
}

pub fn output(table: &Table, marks: &[u8], lent: &mut [u16], x: u8, y: u8) -> Result<u8, Refusal> {
    marked(table, marks)?;
    let state = State::read(table, marks, lent)?;
    within(x, table.inputs)?;
    within(y, table.outputs)?;
    let chosen = state.choose_output(table, marks, x, y);
    let y = chosen.ok_or(Refusal::NothingReachesLive)?;
    let next = state.step(table, x, y);
    next.expect("a chosen event is permitted").write(lent);
    Ok(y)
}

pub fn run(
    table: &Table,
    marks: &[u8],
    lent: &mut [u16],
    events: &[u8],
    released: &mut [u8],
) -> Result<RunEnd, Refusal> {
    marked(table, marks)?;
    if released.len() < events.len() {
        return Err(Refusal::SliceTooShort);
    }
    let mut state = State::read(table, marks, lent)?;
    for event in events {
        within(event & 15, table.inputs)?;
        within(event >> 4, table.outputs)?;
    }
    let mut count = 0;
    let mut refusal = None;
    for (event, out) in events.iter().zip(released) {
        let Some((x, y, next)) = tick(table, marks, &state, event & 15, event >> 4) else {
            refusal = Some(Refusal::NothingReachesLive);
            break;
        };
        *out = x | y << 4;
        state = next;
        count += 1;
    }
    state.write(lent);
    Ok(RunEnd {
        refusal,
        released: count,
    })
}

/// Both halves. An event that may stand as it was read is what both keep.
fn tick(table: &Table, marks: &[u8], state: &State, x: u8, y: u8) -> Option<(u8, u8, State)> {
    if let Some(next) = state.arrival(table, marks, x, y) {
        return Some((x, y, next));
    }
    let x = state.choose_input(table, marks, x)?;
    let y = state.choose_output(table, marks, x, y)?;
    Some((x, y, state.step(table, x, y)?))
}
