//! A session from its opening to its close.

use std::fs;
use std::io::{self, Write};

use session::abi::UNDO_RECORDS;
use session::{Call, Closing, Outcome, Question, Refused, Session, Undo, UndoList, LIST_BYTES};
use world::plan::Fault;
use world::traced::Traced;
use world::World;

use crate::calls::Calls;
use crate::card;
use crate::follow::Follow;
use crate::options::{Options, Picture};
use crate::over::Over;
use crate::picture;
use crate::progress::Progress;
use crate::report;
use crate::uses::Use;
use crate::words;

struct Station<'a, W> {
    out: W,
    bus: Traced<World>,
    session: Box<Session>,
    undo: UndoList<'a>,
    calls: Calls,
    follow: Follow,
    progress: Progress,
    /// The opcodes of the commands that have ended.
    sent: Vec<u16>,
}

impl<'a, W: Write> Station<'a, W> {
    fn new(options: &Options, records: &'a mut [Undo], out: W) -> Station<'a, W> {
        let plan = card::plan(options);
        let planned = plan.faults.iter().map(|f| f.call).collect();
        Station {
            out,
            bus: Traced::new(World::new(plan)),
            session: Box::default(),
            undo: UndoList::new(records),
            calls: Calls::new(options.trace, planned),
            follow: Follow::default(),
            progress: Progress::new(),
            sent: Vec::new(),
        }
    }

    /// Answers questions until none is open, and tells what is seen.
    fn drive(&mut self, first: Result<Question, Refused>) -> io::Result<Result<Outcome, Refused>> {
        let (mut next, mut list) = (first, [0; LIST_BYTES]);
        while let Ok(question) = next {
            if question == Question::Finished {
                self.calls.flush(&mut self.out)?;
                return Ok(self.session.result());
            }
            let answer = self.session.ask(&mut Over::new(&mut self.bus), &mut list);
            self.seen()?;
            next = self.session.answer(answer, &mut self.undo);
        }
        Ok(Err(next.expect_err("a question goes on")))
    }

    /// Tells what the last question has led to on the bus.
    fn seen(&mut self) -> io::Result<()> {
        for event in self.bus.take().events() {
            let ended = self.follow.event(&event);
            self.progress.waiting(self.follow.waiting());
            self.calls.event(event, &mut self.out)?;
            if let Some(command) = ended {
                self.calls.flush(&mut self.out)?;
                self.sent.push(command.op);
                report::command(&mut self.out, self.sent.len() as u64, &command)?;
            }
        }
        Ok(())
    }

    /// One call from its beginning to its result.
    fn call(&mut self, name: &str, call: Call) -> io::Result<Result<Outcome, Refused>> {
        report::head(&mut self.out, name, true)?;
        let first = self.session.begin(call, &mut self.undo);
        let outcome = self.drive(first)?;
        report::result(&mut self.out, outcome)?;
        Ok(outcome)
    }

    /// One call on the open session, or a record for the undo list; whether it was good.
    fn used(&mut self, it: &Use) -> io::Result<bool> {
        let outcome = match (it.call(), it) {
            (Some(call), _) => {
                let first = self.session.begin(call, &mut self.undo);
                let asks = first.is_ok_and(|q| q != Question::Finished);
                report::head(&mut self.out, &it.name(), asks && !matches!(it, Use::Lend(_)))?;
                self.drive(first)?
            }
            (None, Use::Push(record)) => {
                report::head(&mut self.out, &it.name(), false)?;
                self.undo.push(*record).map(|()| Outcome::Open)
            }
            (None, _) => panic!("a use that is no call"),
        };
        report::used(&mut self.out, it, outcome, self.undo.len(), self.session.outbox())?;
        Ok(outcome.is_ok_and(|o| !matches!(o, Outcome::CallFailed(_))))
    }

    /// Everything that is called on the open session, and the close; whether all went well.
    fn use_and_close(&mut self, options: &Options) -> io::Result<bool> {
        let mut good = true;
        for it in &options.uses {
            good &= self.used(it)?;
        }
        let closed = self.call("closing", Call::Close)?;
        let quiesced = options.uses.contains(&Use::Quiesce);
        Ok(good && closed == Ok(Outcome::Closed(if quiesced { Closing::Reset } else { Closing::Clean })))
    }

    /// The opened session: what it has found out, and its picture.
    fn tell(&mut self, picture: Option<&Picture>) -> io::Result<Option<String>> {
        let (Ok(setup), Ok(books)) = (self.session.setup(), self.session.books()) else {
            return Ok(None);
        };
        report::opened(&mut self.out, &setup, &books)?;
        if picture == Some(&Picture::Text) {
            write!(self.out, "\n{}", picture::text(&setup, &books))?;
        }
        Ok(Some(picture::svg(&setup, &books)))
    }

    /// What is left, and which of the options have not come to bear.
    fn end(&mut self, options: &Options) -> io::Result<()> {
        let world = &self.bus.bus;
        if let Ok(books) = self.session.books() {
            report::held(&mut self.out, &books, &world.holdings())?;
        }
        world.misuse().iter().try_for_each(|m| writeln!(self.out, "misuse of the host or the card: {m}"))?;
        writeln!(self.out, "bus calls: {}, commands: {}", self.calls.count(), self.sent.len())?;
        for Fault { call, .. } in options.faults.iter().filter(|f| f.call >= self.calls.count()) {
            writeln!(self.out, "note: call {} was never made", call.saturating_add(1))?;
        }
        for (op, _) in options.commands.iter().filter(|(op, _)| !self.sent.contains(op)) {
            writeln!(self.out, "note: {} was never sent", words::command(*op))?;
        }
        Ok(())
    }
}

/// Opens, uses and closes; true if all went well.
pub fn run(options: &Options, out: impl Write) -> io::Result<bool> {
    let mut records = [Undo::default(); UNDO_RECORDS];
    let mut station = Station::new(options, &mut records, out);
    let card = options.seed.map_or("that does as it is told".into(), |s| format!("of seed {s}"));
    writeln!(station.out, "a card {card}")?;
    let opened = station.call("opening", Call::Open)? == Ok(Outcome::Open);
    let (mut svg, mut good) = (None, false);
    if opened {
        svg = station.tell(options.picture.as_ref())?;
        good = station.use_and_close(options)?;
    }
    station.end(options)?;
    station.out.flush()?;
    draw(options.picture.as_ref(), svg)?;
    Ok(good && station.bus.bus.misuse().is_empty())
}

/// Writes the picture of an open session to its file.
fn draw(picture: Option<&Picture>, svg: Option<String>) -> io::Result<()> {
    match (picture, svg) {
        (Some(_), None) => Err(io::Error::other("no picture: the session was not opened")),
        (Some(Picture::Svg(file)), Some(svg)) => {
            fs::write(file, svg).map_err(|e| io::Error::new(e.kind(), format!("{file}: {e}")))
        }
        _ => Ok(()),
    }
}
