//! Several bays that share one policy and one set of marks, each with its own
//! state in a list.

use crate::basis::Basis;
use crate::enforce;
use crate::engine::{found_in, refusal_in, Engine};
use crate::hex::hex;
use crate::moment::STATE_LENGTH;
use crate::policies::{self, Size};
use crate::random::Random;
use crate::reading::READINGS;
use crate::refusal::Refusal;
use crate::subject::{some_value, Subject};

pub const MOST_BAYS: usize = 8;

/// How many bays a list has; nothing if it is none.
fn bays_in(states: &[u16]) -> Option<usize> {
    (1..=MOST_BAYS).find(|bays| bays * STATE_LENGTH == states.len())
}

/// "making a new list starts every bay afresh"
pub fn new(states: &mut [u16]) -> Result<(), Refusal> {
    match bays_in(states) {
        Some(_) => states.fill(0),
        None => return Err(Refusal::CountOfBays),
    }
    Ok(())
}

/// Where the state of a bay stands in the list. "24 for a bay not below the
/// count, after 10": so the file and the marks are looked at first. What is no
/// list holds no bay.
fn place_of(basis: Basis, states: &[u16], bay: u32) -> Result<usize, Refusal> {
    let (_, policy) = enforce::read(basis)?;
    enforce::check_mark_slice(&policy, basis.marks)?;
    let bays = bays_in(states).unwrap_or(0);
    match usize::try_from(bay) {
        Ok(bay) if bay < bays => Ok(bay * STATE_LENGTH),
        _ => Err(Refusal::NoSuchBay),
    }
}

pub fn input_half(basis: Basis, states: &[u16], bay: u32, x: u8) -> Result<u8, Refusal> {
    let place = place_of(basis, states, bay)?;
    enforce::input_half(basis, &states[place..place + STATE_LENGTH], x)
}

/// Changes the state of its bay; a refusal leaves all as they were.
pub fn output_half(
    basis: Basis,
    states: &mut [u16],
    bay: u32,
    x: u8,
    y: u8,
) -> Result<u8, Refusal> {
    let place = place_of(basis, states, bay)?;
    enforce::output_half(basis, &mut states[place..place + STATE_LENGTH], x, y)
}

/// One tick as a bay sees it: what is read, and the answers of both halves.
#[derive(Clone, Copy, Debug, PartialEq, Eq)]
struct Tick {
    x: u8,
    y: u8,
    input: u64,
    output: u64,
}

/// A policy, its marks, and for each bay the ticks it will have.
pub struct Station {
    reading: u8,
    file: Vec<u8>,
    marks: Vec<u8>,
    /// For each bay, x and y of its ticks. Some have bits beyond the signals,
    /// and are refused.
    wanted: Vec<Vec<(u8, u8)>>,
    /// Which bay each tick is of, in two orders.
    orders: [Vec<usize>; 2],
}

/// What has been tried.
#[derive(Clone, Copy, Debug, Default)]
pub struct BayTally {
    pub stations: usize,
    pub ticks: usize,
    pub refused: usize,
    pub edited: usize,
}

pub fn station(seed: u64, number: u64) -> Station {
    let mut random = Random::for_group(seed ^ 0x5A5A_5A5A, number);
    let reading = random.pick(&READINGS);
    let mut subject = Subject::new(policies::of_size(&mut random, Size::Tiny), reading);
    while !subject.liveness.live[0] {
        subject = Subject::new(policies::of_size(&mut random, Size::Tiny), reading);
    }
    let policy = &subject.policy;
    let bays = random.between(1, MOST_BAYS);
    let wanted: Vec<Vec<(u8, u8)>> = (0..bays)
        .map(|_| {
            let ticks = random.between(0, 12);
            let mut value = |mask| some_value(&mut random, mask);
            (0..ticks)
                .map(|_| (value(policy.input_mask()), value(policy.output_mask())))
                .collect()
        })
        .collect();
    let mut order: Vec<usize> = (0..bays)
        .flat_map(|bay| vec![bay; wanted[bay].len()])
        .collect();
    random.shuffle(&mut order);
    let mut other = order.clone();
    random.shuffle(&mut other);
    Station {
        reading: reading.number(),
        marks: subject.liveness.marks(),
        file: subject.file,
        wanted,
        orders: [order, other],
    }
}

impl Station {
    pub fn describe(&self) -> String {
        format!(
            "reading {}\nfile {}\nmarks {}\nwanted {:?}\norders {:?}",
            self.reading,
            hex(&self.file),
            hex(&self.marks),
            self.wanted,
            self.orders
        )
    }

    fn basis(&self) -> Basis<'_> {
        Basis::new(self.reading, &self.file, &self.marks)
    }

    /// The ticks of all bays in one order, through one list: what each bay
    /// saw, and the list afterwards.
    fn through_list(
        &self,
        engine: &mut dyn Engine,
        order: &[usize],
    ) -> Result<(Vec<Vec<Tick>>, Vec<u16>), String> {
        let bays = self.wanted.len();
        let mut states = vec![0xEEEE; bays * STATE_LENGTH];
        if engine.bays_new(&mut states) != 0 || states != vec![0; bays * STATE_LENGTH] {
            return Err(format!("a list of {bays} bays is not made: {states:?}"));
        }
        let mut seen = vec![Vec::new(); bays];
        for &bay in order {
            let (x, y) = self.wanted[bay][seen[bay].len()];
            let (named, before) = (bay as u32, states.clone());
            let input = engine.bay_input(self.basis(), &states, named, x);
            let output = engine.bay_output(self.basis(), &mut states, named, passed(input, x), y);
            let own = bay * STATE_LENGTH..(bay + 1) * STATE_LENGTH;
            let others = |states: &[u16]| [&states[..own.start], &states[own.end..]].concat();
            if others(&states) != others(&before) {
                return Err(format!("a tick of bay {bay} alters another bay's state"));
            }
            if refusal_in(output) != 0 && states != before {
                return Err(format!("a refused tick of bay {bay} alters its state"));
            }
            seen[bay].push(Tick {
                x,
                y,
                input,
                output,
            });
        }
        Ok((seen, states))
    }

    /// The ticks of one bay by themselves, through the plain halves.
    fn alone(&self, engine: &mut dyn Engine, bay: usize) -> (Vec<Tick>, Vec<u16>) {
        let mut state = vec![0; STATE_LENGTH];
        let mut seen = Vec::new();
        for &(x, y) in &self.wanted[bay] {
            let input = engine.input(self.basis(), &state, x);
            let output = engine.output(self.basis(), &mut state, passed(input, x), y);
            seen.push(Tick {
                x,
                y,
                input,
                output,
            });
        }
        (seen, state)
    }
}

/// The x' of an answer; after a refused input half the loop hands on what it
/// read, so that the output half is refused as well or takes it as it is.
pub fn passed(input: u64, x: u8) -> u8 {
    match refusal_in(input) {
        0 => found_in(input) as u8,
        _ => x,
    }
}

/// Each bay sees what it would see alone, in whatever order the ticks come.
pub fn examine(
    engine: &mut dyn Engine,
    station: &Station,
    tally: &mut BayTally,
) -> Result<(), String> {
    let mut found = Vec::new();
    for order in &station.orders {
        found.push(station.through_list(engine, order)?);
    }
    if found[0] != found[1] {
        return Err("ticks of different bays exchanged change an answer".to_string());
    }
    let (seen, states) = &found[0];
    for (bay, ticks) in seen.iter().enumerate() {
        let (alone, state) = station.alone(engine, bay);
        if *ticks != alone || states[bay * STATE_LENGTH..(bay + 1) * STATE_LENGTH] != state {
            return Err(format!("bay {bay} sees what it does not see alone"));
        }
        for tick in ticks {
            tally.ticks += 1;
            tally.refused += usize::from(refusal_in(tick.output) != 0);
            let edited = found_in(tick.output) != usize::from(tick.y);
            tally.edited += usize::from(refusal_in(tick.output) == 0 && edited);
        }
    }
    tally.stations += 1;
    engine.kept_to_what_was_lent()
}

#[cfg(test)]
mod tests {
    use super::*;
    use crate::engine::Model;

    #[test]
    fn a_list_has_one_to_eight_bays() {
        for length in 0..60 {
            let mut states = vec![7; length];
            let made = new(&mut states);
            let bays = length / STATE_LENGTH;
            let proper = length % STATE_LENGTH == 0 && (1..=MOST_BAYS).contains(&bays);
            assert_eq!(made.is_ok(), proper, "{length}");
            assert_eq!(states, vec![if proper { 0 } else { 7 }; length]);
        }
    }

    #[test]
    fn the_model_keeps_bays_apart() {
        let mut tally = BayTally::default();
        for number in 0..600 {
            let station = station(11, number);
            if let Err(breach) = examine(&mut Model, &station, &mut tally) {
                panic!("{breach}\n{}", station.describe());
            }
        }
        let BayTally {
            ticks,
            refused,
            edited,
            ..
        } = tally;
        assert!(ticks > 5_000 && refused > 300 && edited > 300, "{tally:?}");
    }
}
