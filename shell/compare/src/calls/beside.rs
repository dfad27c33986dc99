//! The comparison: one list by the Rust and by the session, each over a world of its own.

use std::cell::RefCell;
use std::rc::Rc;

use oracle::run::{self, Driver};
use session::abi::UNDO_RECORDS;
use session::{Session, UndoList};
use world::calls::Call;
use world::results::{Given, Refusal, State, Stop};
use world::trace::Trace;
use world::traced::Traced;
use world::{Holdings, World};

use super::cases::Case;
use super::told;
use crate::sessions::beside::{books_fit, mailbox, Difference, Parts, STALE};
use crate::sessions::glimpse::{Glimpse, Notes};
use crate::sessions::over::Over;
use crate::sessions::told::{record, state};

type Bus = Traced<Glimpse<World>>;

/// What one call did and came to.
#[derive(Clone, PartialEq, Debug)]
pub struct Step {
    pub trace: Trace,
    pub given: Result<Given, Refusal>,
    /// The books and the undo list of the open session.
    pub state: Option<Box<State>>,
    pub inbox: Vec<u8>,
    pub outbox: Vec<u8>,
}

/// What one of the two did and came to.
#[derive(Clone, PartialEq, Debug)]
pub struct Ran {
    pub steps: Vec<Step>,
    pub holdings: Holdings,
    pub misuse: Vec<String>,
}

/// A run, with what is needed to make more cases of it.
pub struct Run {
    pub ran: Ran,
    /// The bus calls that can fail, the commands taken and the reads of the status dword, behind the opening.
    pub calls: u64,
    pub commands: u64,
    pub reads: u64,
    /// The session's books at the end, where it is the session that ran.
    pub books: Option<session::Books>,
    /// By call: the outbox is as the device has it. It is not where a command's end was not seen, until a later command that
    /// zeroes it was seen done.
    pub seen: Vec<bool>,
    /// What the mailboxes held, where the Rust ran and it was noted.
    pub notes: Option<Notes>,
}

fn bus(case: &Case) -> Bus {
    Traced::new(Glimpse::new(World::new(case.plan.clone()), None))
}

fn world(bus: &Bus) -> &World {
    &bus.bus.bus
}

/// The opening was good: what is counted from there.
fn opened(bus: &mut Bus, case: &Case) -> [u64; 2] {
    bus.bus.schedule(case.go_at);
    bus.bus.bus.schedule(case.later.clone());
    [world(bus).calls(), bus.bus.reads]
}

/// The opening has failed: there is no session.
fn failed(call: &Call, given: &Result<Given, Refusal>) -> bool {
    *call == Call::Open && given.is_err()
}

/// The Rust's run; nothing outside the domain of document 01.
pub fn rust(case: &Case) -> Option<Run> {
    rust_over(bus(case), case)
}

/// The same, with what the mailboxes held.
pub fn rust_noted(case: &Case) -> Option<Run> {
    let mut noted = bus(case);
    noted.bus.notes = Some(Notes::default());
    rust_over(noted, case)
}

fn rust_over(bus: Bus, case: &Case) -> Option<Run> {
    let shared = Rc::new(RefCell::new(bus));
    let mut driver = Driver::new(shared.clone());
    let (mut steps, mut first) = (Vec::new(), [0; 2]);
    for call in &case.calls {
        let given = match run::call(&mut driver, call) {
            Ok(given) => Ok(given),
            Err(Stop::Refused(refusal)) => Err(refusal),
            Err(Stop::Outside(_)) => return None,
        };
        if *call == Call::Open && given.is_ok() {
            first = opened(&mut shared.borrow_mut(), case);
        }
        let [inbox, outbox] = driver.mailboxes().map(mailbox);
        let (trace, over) = (shared.borrow_mut().take(), failed(call, &given));
        steps.push(Step { trace, given, state: driver.state().map(Box::new), inbox, outbox });
        if over {
            break;
        }
    }
    let mut bus = shared.borrow_mut();
    let inside = world(&bus).outside().is_empty() && world(&bus).misuse().is_empty();
    inside.then(|| ended(&mut bus, first, steps))
}

/// What is left at the end.
fn ended(bus: &mut Bus, [calls, reads]: [u64; 2], steps: Vec<Step>) -> Run {
    let commands = steps.iter().skip(1).map(|s| s.trace.posts().count() as u64).sum();
    let seen = vec![true; steps.len()];
    let notes = bus.bus.notes.take();
    let ran = Ran { steps, holdings: world(bus).holdings(), misuse: world(bus).misuse().to_vec() };
    Run { ran, calls: world(bus).calls() - calls, commands, reads: bus.bus.reads - reads, books: None, seen, notes }
}

/// One call by the session.
fn called(call: &Call, session: &mut Session, over: &mut Over<Bus>, undo: &mut UndoList) -> Result<Given, Refusal> {
    match (told::call(call), call) {
        (Some(c), _) => {
            let outcome = session.call(c, over, undo);
            told::given(call, outcome, session)
        }
        (None, Call::PushUndo(u)) => undo.push(record(u)).map(|()| Given::Nothing).map_err(told::refused),
        _ => panic!("a call that is none"),
    }
}

/// Whether the outbox is as the device has it behind a call, if it was so before.
fn seen(before: bool, call: &Call, over: &Over<Bus>) -> bool {
    let zeroed = matches!(call, Call::Command(c) if c.form.has_reply());
    over.unseen == 0 && (before || zeroed && over.fences > 0)
}

/// The session's run.
pub fn ours(case: &Case) -> Run {
    let mut bus = bus(case);
    let mut session = Box::new(Session::with_mailboxes([STALE; 4096], [STALE; 4096]));
    let mut records = [session::Undo::default(); UNDO_RECORDS];
    let mut undo = UndoList::new(&mut records);
    let (mut steps, mut seen_at, mut first) = (Vec::new(), vec![true], [0; 2]);
    for call in &case.calls {
        let mut over = Over::new(&mut bus);
        let given = called(call, &mut session, &mut over, &mut undo);
        seen_at.push(seen(seen_at[steps.len()], call, &over));
        let trace = bus.take();
        if *call == Call::Open && given.is_ok() {
            first = opened(&mut bus, case);
        }
        let open = session.result().expect("a session").is_open();
        let state = open.then(|| Box::new(state(&session.books().expect("a session"), &undo)));
        let over = failed(call, &given);
        steps.push(Step { trace, given, state, inbox: session.inbox().to_vec(), outbox: session.outbox().to_vec() });
        if over {
            break;
        }
    }
    let books = Some(session.books().expect("a session"));
    Run { books, seen: seen_at.split_off(1), ..ended(&mut bus, first, steps) }
}

fn parts(case: &Case, ran: &Ran) -> Parts {
    let mut all = Vec::new();
    for (n, (step, call)) in ran.steps.iter().zip(&case.calls).enumerate() {
        let mut part = |name: &str, text: String| all.push((format!("call {n} {}, {name}", short(call)), text));
        part("bus calls", step.trace.folded());
        part("result", format!("{:#?}", step.given));
        part("state", format!("{:#?}", step.state));
        part("inbox", format!("{:02x?}", step.inbox));
        part("outbox", format!("{:02x?}", step.outbox));
    }
    all.push(("holdings".into(), format!("{:#?}", ran.holdings)));
    all.push(("misuse".into(), format!("{:?}", ran.misuse)));
    all
}

/// A call without the bytes of its input.
fn short(call: &Call) -> String {
    match call {
        Call::Command(c) => {
            let (form, n) = (c.form, c.input.len());
            format!("{form:?} {:#x} {:#x} {:#x} {:#x}, {n} bytes", c.op, c.op_mod, c.in_mod, c.in_param)
        }
        other => format!("{other:?}"),
    }
}

/// Compares two runs of one list.
pub fn differ(case: &Case, rust: &Ran, mut session: Run) -> Result<(), Box<Difference>> {
    let both = session.ran.steps.iter_mut().zip(&rust.steps);
    for ((ours, rust), _) in both.zip(&session.seen).filter(|(_, seen)| !**seen) {
        ours.outbox.clone_from(&rust.outbox);
    }
    Difference::of_runs(&case.name, rust, &session.ran, |ran| parts(case, ran))
}

/// Compares one list: the Rust's run, or nothing outside the domain.
pub fn same(case: &Case) -> Result<Option<Run>, Box<Difference>> {
    let Some(rust) = rust(case) else {
        return Ok(None);
    };
    let ours = ours(case);
    let books = ours.books.as_ref().expect("the session's run");
    let fit = books_fit(&case.name, books, &ours.ran.holdings);
    differ(case, &rust.ran, ours)?;
    fit.map(|()| Some(rust))
}
