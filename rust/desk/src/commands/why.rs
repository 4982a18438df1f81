//! `why`: the reasons of edited ticks.

use groovepawn::{Marks, Policy, Reasons, Station, WhyRoom};

use crate::asks::Asks;
use crate::commands::run::form;
use crate::events::{Events, PIECE};
use crate::fault::Fault;
use crate::help;
use crate::out::Out;
use crate::policies::Named;
use crate::runner::{Piece, Runner};
use crate::signals::Signals;
use crate::words::Words;

pub fn obey(words: &Words) -> Result<(), Fault> {
    let [policy, events] = words.exactly()?;
    let from = words.tick(&help::FROM)?.unwrap_or(1);
    let to = words.tick(&help::TO)?.unwrap_or(u64::MAX);
    if to < from {
        return Err(words.wrong("--to is before --from".to_string()));
    }
    let reading = words.reading()?;
    let named = Named::read(policy)?;
    let (marks, _) = named.prepare(reading)?;
    let events = Events::open(events, form(words), &named)?;
    let mut runner = Runner::new(&named.policy, &marks, events);
    let mut out = Out::standard();
    let mut teller = Teller::new(&named, &marks, from, to);
    let told = tell_all(&mut runner, &mut teller, &mut out);
    if told.is_ok() {
        teller.end(runner.ticks(), &mut out)?;
    }
    out.finish()?;
    told
}

fn tell_all(runner: &mut Runner, teller: &mut Teller, out: &mut Out) -> Result<(), Fault> {
    while let Some(piece) = runner.piece()? {
        teller.tell(&piece, out)?;
        if piece.first + PIECE as u64 > teller.to {
            break;
        }
    }
    Ok(())
}

/// Tells the ticks between two.
struct Teller<'a> {
    name: &'a str,
    policy: &'a Policy,
    marks: &'a Marks,
    from: u64,
    to: u64,
    signals: Signals,
    asks: Asks<'a>,
    room: WhyRoom,
    edited: u64,
}

impl<'a> Teller<'a> {
    fn new(named: &'a Named, marks: &'a Marks, from: u64, to: u64) -> Teller<'a> {
        let policy = &named.policy;
        Teller {
            name: &named.name,
            policy,
            marks,
            from,
            to,
            signals: Signals::of(named),
            asks: Asks::of(named),
            room: WhyRoom::new(policy, PIECE),
            edited: 0,
        }
    }

    fn tell(&mut self, piece: &Piece, out: &mut Out) -> Result<(), Fault> {
        let last = piece.first + piece.read.len() as u64 - 1;
        if last < self.from || piece.first > self.to || piece.read == piece.released {
            return Ok(());
        }
        let mut station = Station::at(self.policy, self.marks, piece.before);
        let reasons = station.why_run(piece.read, &mut self.room);
        let reasons = reasons.map_err(|refusal| Fault::refused(self.name, refusal))?;
        for ((tick, read, released), reasons) in piece.ticks().zip(reasons) {
            if (self.from..=self.to).contains(&tick) && reasons.edited() {
                self.edited += 1;
                let (read, released) = (self.signals.words(read), self.signals.words(released));
                out.line(&format!("tick {tick}: read {read}, released {released}"))?;
                put_reasons(&self.asks, reasons, out)?;
            }
        }
        Ok(())
    }

    /// How many ticks were told of, and how many of them were edited.
    fn end(&self, ticks: u64, out: &mut Out) -> Result<(), Fault> {
        if ticks < self.from {
            return out.line(&format!("the events end at tick {ticks}"));
        }
        let told = ticks.min(self.to) - (self.from - 1);
        let reading = self.marks.reading().number();
        out.line(&format!(
            "{} of {told} ticks edited under reading {reading}",
            self.edited
        ))
    }
}

fn put_reasons(asks: &Asks, reasons: Reasons, out: &mut Out) -> Result<(), Fault> {
    if let Some(reason) = reasons.input {
        out.line(&format!("  input: {}", asks.input(reason)))?;
    }
    if let Some(reason) = reasons.output {
        out.line(&format!("  output: {}", asks.output(reason)))?;
    }
    Ok(())
}
