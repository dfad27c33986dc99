//! The bus calls as lines, with the numbers by which `--fail` counts them.

use std::io::{self, Write};

use world::trace::Event;

/// A read and the stall behind it, so many times.
struct Wait {
    first: u64,
    read: Event,
    stall: Event,
    times: u64,
}

/// Numbers the calls, and prints all of them or those that failed.
pub struct Calls {
    all: bool,
    /// The calls, from 0, that are to fail.
    planned: Vec<u64>,
    count: u64,
    read: Option<Event>,
    wait: Option<Wait>,
}

impl Calls {
    pub fn new(all: bool, planned: Vec<u64>) -> Calls {
        Calls { all, planned, count: 0, read: None, wait: None }
    }

    /// The calls so far that can fail.
    pub fn count(&self) -> u64 {
        self.count
    }

    pub fn event(&mut self, event: Event, out: &mut impl Write) -> io::Result<()> {
        self.count += u64::from(event.is_call());
        if !self.all {
            return if self.notable(&event) { writeln!(out, "call {} failed: {event}", self.count) } else { Ok(()) };
        }
        let read = self.read.take();
        let number = self.count - u64::from(event.is_call());
        match (read, event) {
            (Some(read), stall @ Event::Stall { .. }) => self.waited(read, stall, out),
            (None, read @ (Event::RegisterRead { .. } | Event::ConfigRead { .. })) => self.keep(read),
            (read, event @ (Event::RegisterRead { .. } | Event::ConfigRead { .. })) => {
                self.settle(read, number, out)?;
                self.keep(event)
            }
            (read, event) => {
                self.settle(read, number, out)?;
                line(self.count, &event, out)
            }
        }
    }

    /// Keeps a read back, which a stall may follow.
    fn keep(&mut self, read: Event) -> io::Result<()> {
        self.read = Some(read);
        Ok(())
    }

    /// A failed call; one for a resource list only if it was to fail, since not every index has a list.
    fn notable(&self, event: &Event) -> bool {
        let usual = matches!(event, Event::Resource { .. }) && !self.planned.contains(&(self.count - 1));
        event.failed() && !usual
    }

    /// One more wait: like the last one, or a new one.
    fn waited(&mut self, read: Event, stall: Event, out: &mut impl Write) -> io::Result<()> {
        match &mut self.wait {
            Some(w) if w.read == read && w.stall == stall => w.times += 1,
            _ => {
                let last = self.wait.replace(Wait { first: self.count, read, stall, times: 1 });
                last.map_or(Ok(()), |w| waits(&w, out))?;
            }
        }
        Ok(())
    }

    /// Prints what is kept back: the last wait, and a read of that number.
    fn settle(&mut self, read: Option<Event>, number: u64, out: &mut impl Write) -> io::Result<()> {
        self.wait.take().map_or(Ok(()), |w| waits(&w, out))?;
        read.map_or(Ok(()), |r| line(number, &r, out))
    }

    /// Prints what is kept back at the end of a call.
    pub fn flush(&mut self, out: &mut impl Write) -> io::Result<()> {
        let read = self.read.take();
        self.settle(read, self.count, out)
    }
}

fn line(number: u64, event: &Event, out: &mut impl Write) -> io::Result<()> {
    match event.is_call() {
        true => writeln!(out, "{number:>8}  {event}"),
        false => writeln!(out, "{:>8}  {event}", ""),
    }
}

fn waits(w: &Wait, out: &mut impl Write) -> io::Result<()> {
    match w.times {
        1 => {
            line(w.first, &w.read, out)?;
            line(0, &w.stall, out)
        }
        n => writeln!(out, "{:>8}  x{n} {}; {}", w.first, w.read, w.stall),
    }
}
