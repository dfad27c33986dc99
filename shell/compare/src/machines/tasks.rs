//! What is run: each task by the Rust, as a record for the proved machine.

use std::cell::RefCell;
use std::rc::Rc;

use oracle::bars::How;
use oracle::machines::{self, Command, Commanded, Part, ResetEnd, SharedBus};
use world::bus::AttributeCall;
use world::calls::Form;
use world::trace::{Event, Trace};
use world::traced::Traced;

use super::plans::Case;
use super::records::{record, End, Record};
use super::script::{Faults, Plan, Script};

/// The machines by their numbers.
pub const NAMES: [&str; 8] = ["command", "reset", "making", "freeing", "attributes", "claim", "parting", "find_bar"];

/// A task and what it starts with.
#[derive(Clone, Copy, PartialEq, Eq, Debug)]
pub enum Task {
    Command(Command),
    Reset,
    /// How many bytes.
    Making(u64),
    Freeing(u64),
    Attributes,
    Claim,
    Parting(Part),
    FindBar,
}

type Traces = Rc<RefCell<Traced<Script>>>;

/// Runs the Rust; gives the record, and how many calls there were that can fail.
pub fn run(case: &Case, faults: Faults) -> (Record, u64) {
    let freeing = matches!(case.task, Task::Freeing(_));
    let first = if freeing { Faults::None } else { faults };
    let script = Script::new(Plan { faults: first, ..case.plan.clone() });
    let bus: Traces = Rc::new(RefCell::new(Traced::new(script)));
    let record = match case.task {
        Task::Command(c) => command(&bus, &c),
        Task::Reset => reset(&bus),
        Task::Making(bytes) => making(&bus, bytes),
        Task::Freeing(bytes) => freeing_of(&bus, bytes, faults),
        Task::Attributes => attributes(&bus),
        Task::Claim => claim(&bus),
        Task::Parting(part) => parting(&bus, part),
        Task::FindBar => find_bar(&bus),
    };
    let calls = bus.borrow().bus.calls();
    (record, calls)
}

fn shared(bus: &Traces) -> SharedBus {
    bus.clone()
}

fn taken(bus: &Traces) -> Trace {
    bus.borrow_mut().take()
}

fn end(number: u64, values: &[u64]) -> End {
    let mut all = [0; 4];
    all[..values.len()].copy_from_slice(values);
    End { number, values: all }
}

/// Posted are inbox and outbox, or what the form has in their place. The µs are the sum of the stalls.
fn command(bus: &Traces, c: &Command) -> Record {
    let (result, toggle) = machines::command(&shared(bus), c);
    let trace = taken(bus);
    let (_, us) = trace.stalls();
    let (number, value) = match result {
        Commanded::Done(v) => (0, v.unwrap_or(0)),
        Commanded::Status(s) => (6, s.into()),
        Commanded::Timeout => (7, 0),
        Commanded::Busy => (8, 0),
        Commanded::Bus => (9, 0),
    };
    let (told, params) = match c.form {
        Form::Imm => (true, [c.in_param, 0]),
        Form::WithIn => (false, [c.inbox, 0]),
        Form::WithOut => (false, [0, c.outbox]),
        Form::InImm => (true, [c.inbox, 0]),
        Form::InOut => (false, [c.inbox, c.outbox]),
    };
    // Nothing is read after the Timeout of a silent command.
    let catas = c.catas.filter(|_| !c.silent);
    let (bar, offset) = catas.unwrap_or((0, 0));
    let start = [
        c.op.into(),
        c.op_mod.into(),
        c.in_mod.into(),
        params[0],
        params[1],
        c.toggle.into(),
        told.into(),
        catas.is_some().into(),
        bar.into(),
        offset,
    ];
    record(0, &start, &trace, end(number, &[value, us, toggle.into()]))
}

fn reset(bus: &Traces) -> Record {
    let end = match machines::reset(&shared(bus)) {
        ResetEnd::Good => end(0, &[]),
        ResetEnd::Save => end(3, &[1]),
        ResetEnd::Semaphore(v) => end(3, &[2, v.into()]),
        ResetEnd::Write => end(3, &[3]),
        ResetEnd::Vendor => end(3, &[4]),
    };
    record(1, &[], &taken(bus), end)
}

fn making(bus: &Traces, bytes: u64) -> Record {
    let made = machines::make(&shared(bus), bytes);
    let end = made.map_or(end(5, &[]), |b| end(0, &[b.handle.0, b.dev, b.pages]));
    record(2, &[bytes], &taken(bus), end)
}

/// The calls behind those that made the buffer.
fn freeing_of(bus: &Traces, bytes: u64, faults: Faults) -> Record {
    let between = || {
        let mut bus = bus.borrow_mut();
        bus.take();
        bus.bus.begin(faults);
    };
    let b = machines::make_and_free(&shared(bus), bytes, between).expect("a buffer");
    record(3, &[b.handle.0, b.dev, b.pages], &taken(bus), end(0, &[]))
}

/// The first calls of an opening, whose claim then fails. Where they were good it goes on, and restores in the end what it
/// found in the beginning.
fn attributes(bus: &Traces) -> Record {
    assert!(!machines::open(&shared(bus)), "the claim fails");
    let events: Vec<Event> = taken(bus).events().collect();
    let count = events.iter().take_while(|e| matches!(e, Event::Attributes { .. })).count();
    let (own, rest) = events.split_at(count);
    let restored = rest.iter().find_map(|e| match e {
        Event::Attributes { call: AttributeCall::Set, value, .. } => Some(*value),
        _ => None,
    });
    let mut trace = Trace::default();
    own.iter().for_each(|e| trace.push(e.clone()));
    record(4, &[], &trace, restored.map_or(end(1, &[]), |before| end(0, &[before])))
}

fn claim(bus: &Traces) -> Record {
    let good = machines::claim(&shared(bus));
    record(5, &[], &taken(bus), end(if good { 0 } else { 2 }, &[]))
}

fn parting(bus: &Traces, part: Part) -> Record {
    machines::part(&shared(bus), part);
    let start = match part {
        Part::Release => [0, 0],
        Part::Restore(original) => [1, original],
        Part::QuiesceTail => [2, 0],
    };
    record(6, &start, &taken(bus), end(0, &[]))
}

fn find_bar(bus: &Traces) -> Record {
    let end = match machines::find_bar(&shared(bus)) {
        None => end(4, &[]),
        Some(p) => end(0, &[p.index.into(), p.size.is_some().into(), p.size.unwrap_or(0), way(p.how)]),
    };
    record(7, &[], &taken(bus), end)
}

fn way(how: How) -> u64 {
    match how {
        How::BaseMatches => 0,
        How::Scan => 1,
        How::OnlyAnswer => 2,
        How::NoMatch => 3,
        How::NoAnswer => 4,
    }
}
