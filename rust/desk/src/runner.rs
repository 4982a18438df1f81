//! Events put to the library piece by piece, the state carried on.

use groovepawn::{Marks, Policy, Refusal, State, Station};

use crate::events::{Events, PIECE};
use crate::fault::Fault;
use crate::progress::Progress;

/// A run over events of any length.
pub struct Runner<'a> {
    policy: &'a Policy,
    station: Station<'a>,
    events: Events,
    read: Vec<u8>,
    released: Vec<u8>,
    ticks: u64,
    progress: Progress,
    /// What ended it early, told after the events before it.
    fault: Option<Fault>,
}

/// A piece of a run.
pub struct Piece<'r> {
    /// The state before it.
    pub before: State,
    /// The number of its first tick, counted from 1.
    pub first: u64,
    pub read: &'r [u8],
    pub released: &'r [u8],
}

impl Piece<'_> {
    /// Each tick with its number: as read, as released.
    pub fn ticks(&self) -> impl Iterator<Item = (u64, u8, u8)> + '_ {
        let events = self.read.iter().zip(self.released);
        (self.first..)
            .zip(events)
            .map(|(tick, (&read, &released))| (tick, read, released))
    }
}

impl<'a> Runner<'a> {
    pub fn new(policy: &'a Policy, marks: &'a Marks, events: Events) -> Runner<'a> {
        Runner {
            policy,
            station: Station::new(policy, marks),
            events,
            read: Vec::with_capacity(PIECE),
            released: vec![0; PIECE],
            ticks: 0,
            progress: Progress::begin(),
            fault: None,
        }
    }

    /// The next piece; none at the end. A fault comes after the events before it.
    pub fn piece(&mut self) -> Result<Option<Piece<'_>>, Fault> {
        if let Some(fault) = self.fault.take() {
            return Err(fault);
        }
        self.fault = self.events.piece(&mut self.read).err();
        let before = self.station.state();
        let count = self.release()?;
        if count == 0 {
            self.progress.end();
            return match self.fault.take() {
                Some(fault) => Err(fault),
                None => Ok(None),
            };
        }
        let first = self.ticks + 1;
        self.ticks += count as u64;
        self.progress.tell(self.ticks);
        Ok(Some(Piece {
            before,
            first,
            read: &self.read[..count],
            released: &self.released[..count],
        }))
    }

    /// Whether what was handed out last is followed by a fault.
    pub fn fault(&mut self) -> Option<Fault> {
        self.fault.take()
    }

    /// How many ticks were released so far.
    pub fn ticks(&self) -> u64 {
        self.ticks
    }

    /// Releases what was read, as far as the library does.
    fn release(&mut self) -> Result<usize, Fault> {
        let run = match self.station.run(&self.read, &mut self.released) {
            Err(refusal) if refusal.number() == 15 => self.release_before(refusal)?,
            run => run.map_err(|refusal| self.refused_at(refusal, 0))?,
        };
        if let Some(refusal) = run.stopped {
            self.fault = Some(self.refused_at(refusal, run.released));
        }
        Ok(run.released)
    }

    /// Releases the events before the first with a bit beyond the signals.
    fn release_before(&mut self, refusal: Refusal) -> Result<groovepawn::Run, Fault> {
        let bad = self
            .read
            .iter()
            .position(|&event| !self.policy.has_signals_of(event));
        let bad = bad.unwrap_or(0);
        self.fault = Some(self.refused_at(refusal, bad));
        self.read.truncate(bad);
        let run = self.station.run(&self.read, &mut self.released);
        run.map_err(|refusal| self.refused_at(refusal, 0))
    }

    /// A refusal of the event so many places behind those already released.
    fn refused_at(&self, refusal: Refusal, place: usize) -> Fault {
        let tick = self.ticks + place as u64 + 1;
        let place = match self.read.get(place) {
            Some(event) => format!("tick {tick}, event {event:#04x}"),
            None => format!("tick {tick}"),
        };
        Fault::refused(&self.events.name, refusal.at(place))
    }
}
