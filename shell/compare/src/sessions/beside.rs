//! The comparison: one case by the Rust and by the session, each over a world of its own.

use std::cell::RefCell;
use std::fmt;
use std::rc::Rc;

use oracle::run::{self, Driver};
use session::abi::UNDO_RECORDS;
use session::{Outcome, Session, UndoList, LIST_BYTES};
use world::bus::Resource;
use world::results::{Closing, Opened, Refusal, State, Stop};
use world::trace::Trace;
use world::traced::Traced;
use world::{Holdings, World};

use super::cases::Case;
use super::glimpse::Glimpse;
use super::over::Over;
use super::told;

type Bus = Traced<Glimpse<World>>;

/// What the mailboxes hold before the opening.
pub(crate) const STALE: u8 = 0xa5;

/// What one of the two did and came to.
#[derive(Clone, PartialEq, Debug)]
pub struct Ran {
    pub opening: Trace,
    pub opened: Result<Box<Opened>, Refusal>,
    /// The books of the open session.
    pub state: Option<Box<State>>,
    pub closing: Trace,
    pub closed: Option<Closing>,
    pub inbox: Vec<u8>,
    pub outbox: Vec<u8>,
    pub holdings: Holdings,
    pub misuse: Vec<String>,
}

/// A run, with what is needed to make more cases of it.
pub struct Run {
    pub ran: Ran,
    /// The bus calls that can fail, of the opening and of all.
    pub calls: [u64; 2],
    /// The reads of the status dword.
    pub reads: u64,
    /// The session's books at the end, where it is the session that ran.
    pub books: Option<session::Books>,
    /// No command was posted whose end was not seen.
    pub seen: bool,
}

fn bus(case: &Case) -> Bus {
    Traced::new(Glimpse::new(World::new(case.plan.clone()), case.go_at))
}

fn world(bus: &Bus) -> &World {
    &bus.bus.bus
}

/// A mailbox that never had pages was not touched.
pub(crate) fn mailbox(bytes: Option<Vec<u8>>) -> Vec<u8> {
    bytes.unwrap_or_else(|| vec![STALE; 4096])
}

/// The Rust's run; nothing outside the domain of document 01.
pub fn rust(case: &Case) -> Option<Run> {
    let shared = Rc::new(RefCell::new(bus(case)));
    let mut driver = Driver::new(shared.clone());
    let opened = match run::open(&mut driver) {
        Ok(opened) => Ok(Box::new(opened)),
        Err(Stop::Refused(refusal)) => Err(refusal),
        Err(Stop::Outside(_)) => return None,
    };
    let opening = shared.borrow_mut().take();
    let first = world(&shared.borrow()).calls();
    let good = opened.is_ok();
    case.undo.iter().filter(|_| good).for_each(|u| run::push_undo(&mut driver, *u).expect("an open session"));
    let state = driver.state().map(Box::new);
    let closed = (good && case.close).then(|| run::close(&mut driver).ok());
    let [inbox, outbox] = driver.mailboxes().map(mailbox);
    let mut bus = shared.borrow_mut();
    let closing = bus.take();
    let inside = world(&bus).outside().is_empty() && world(&bus).misuse().is_empty();
    if !inside || closed == Some(None) {
        return None;
    }
    let (holdings, misuse) = (world(&bus).holdings(), world(&bus).misuse().to_vec());
    let ran = Ran { opening, opened, state, closing, closed: closed.flatten(), inbox, outbox, holdings, misuse };
    Some(Run { ran, calls: [first, world(&bus).calls()], reads: bus.bus.reads, books: None, seen: true })
}

/// The session's run.
pub fn ours(case: &Case) -> Run {
    let mut bus = bus(case);
    let mut session = Box::new(Session::with_mailboxes([STALE; 4096], [STALE; 4096]));
    let mut records = [session::Undo::default(); UNDO_RECORDS];
    let mut undo = UndoList::new(&mut records);
    let mut over = Over::new(&mut bus);
    let outcome = session.open(&mut over, &mut undo).expect("a fresh session");
    let mut unseen = over.unseen;
    let opening = bus.take();
    let first = world(&bus).calls();
    let good = outcome == Outcome::Open;
    case.undo.iter().filter(|_| good).for_each(|u| undo.push(told::record(u)).expect("room"));
    let opened =
        told::refusal(outcome).map_or_else(|| Ok(Box::new(told::opened(&session.setup().expect("open")))), Err);
    let state = good.then(|| Box::new(told::state(&session.books().expect("a session"), &undo)));
    let mut closed = None;
    if good && case.close {
        let mut over = Over::new(&mut bus);
        let outcome = session.close(&mut over, &mut undo).expect("an open session");
        unseen += over.unseen;
        closed = Some(told::closed(outcome));
    }
    let closing = bus.take();
    let (holdings, misuse) = (world(&bus).holdings(), world(&bus).misuse().to_vec());
    let (inbox, outbox) = (session.inbox().to_vec(), session.outbox().to_vec());
    let ran = Ran { opening, opened, state, closing, closed, inbox, outbox, holdings, misuse };
    let books = Some(session.books().expect("a session"));
    Run { ran, calls: [first, world(&bus).calls()], reads: bus.bus.reads, books, seen: unseen == 0 }
}

/// Where the two differ.
#[derive(Clone, PartialEq, Eq, Debug)]
pub struct Difference {
    pub case: String,
    pub at: String,
    pub rust: String,
    pub session: String,
}

/// The parts of a run by name, as text.
pub(crate) type Parts = Vec<(String, String)>;

impl Difference {
    /// Of two runs, the first line that differs in the first part that does; nothing where they are the same.
    pub(crate) fn of_runs<R: PartialEq>(
        case: &str,
        rust: &R,
        session: &R,
        parts: impl Fn(&R) -> Parts,
    ) -> Result<(), Box<Difference>> {
        if rust == session {
            return Ok(());
        }
        let (rust, session) = (parts(rust), parts(session));
        let nothing = (String::from("no more calls"), String::new());
        let pair = |i: usize| (rust.get(i).unwrap_or(&nothing), session.get(i).unwrap_or(&nothing));
        let (a, b) = (0..rust.len().max(session.len())).map(pair).find(|(a, b)| a != b).expect("a difference");
        Err(Box::new(Difference::of_text(case, &a.0, &a.1, &b.1)))
    }

    /// Of two texts that differ, the first line that does.
    fn of_text(case: &str, part: &str, rust: &str, session: &str) -> Difference {
        let (a, b): (Vec<&str>, Vec<&str>) = (rust.lines().collect(), session.lines().collect());
        let at = (0..a.len().max(b.len())).find(|i| a.get(*i) != b.get(*i)).unwrap_or(0);
        let line = |all: &[&str]| all.get(at).map_or("nothing", |l| *l).to_string();
        Difference { case: case.into(), at: format!("{part}, line {}", at + 1), rust: line(&a), session: line(&b) }
    }
}

impl fmt::Display for Difference {
    fn fmt(&self, f: &mut fmt::Formatter<'_>) -> fmt::Result {
        writeln!(f, "{}: {}", self.case, self.at)?;
        writeln!(f, "  the Rust:    {}", self.rust)?;
        write!(f, "  the session: {}", self.session)
    }
}

fn parts(ran: &Ran) -> Parts {
    let all = [
        ("opening", ran.opening.folded()),
        ("opened", format!("{:#?}", ran.opened)),
        ("state", format!("{:#?}", ran.state)),
        ("closing", ran.closing.folded()),
        ("closed", format!("{:?}", ran.closed)),
        ("inbox", format!("{:02x?}", ran.inbox)),
        ("outbox", format!("{:02x?}", ran.outbox)),
        ("holdings", format!("{:#?}", ran.holdings)),
        ("misuse", format!("{:?}", ran.misuse)),
    ];
    all.map(|(name, text)| (name.into(), text)).into()
}

/// Compares two runs of one case. An outbox that the card may have written behind the session's back, once a command's
/// end was not seen, is left out.
pub fn differ(case: &Case, rust: &Ran, mut session: Run) -> Result<(), Box<Difference>> {
    if !session.seen {
        session.ran.outbox.clone_from(&rust.outbox);
    }
    Difference::of_runs(&case.name, rust, &session.ran, parts)
}

/// Compares one case: its runs, or nothing outside the domain.
pub fn same(case: &Case) -> Result<Option<Run>, Box<Difference>> {
    let Some(rust) = rust(case) else {
        return Ok(None);
    };
    let ours = ours(case);
    let kept = books_fit(&case.name, ours.books.as_ref().expect("the session's run"), &ours.ran.holdings);
    differ(case, &rust.ran, ours)?;
    kept.map(|()| Some(rust))
}

/// The parts of a run, its resource lists without their bytes.
fn unlisted(ran: &Ran) -> Parts {
    let line = |line: &str| match line.split_once(" -> ") {
        Some((asked, answer)) if asked.starts_with("bar ") && !matches!(answer, "fail" | "null") => {
            format!("{asked} -> list")
        }
        _ => line.to_string(),
    };
    parts(ran).into_iter().map(|(name, text)| (name, text.lines().map(line).collect::<Vec<_>>().join("\n"))).collect()
}

/// Compares a case whose resource lists the Rust may read otherwise than ACPI and UEFI: it is told what these documents read
/// in them, as far as the wrapper has room for a list. Nothing where a list is bad, which one that is cut may be, or the case
/// lies outside the domain otherwise.
pub fn same_read(case: &Case) -> Result<Option<Run>, Box<Difference>> {
    let mut plain = case.clone();
    plain.plan.resources.plain = true;
    for (_, odd) in &mut plain.plan.resources.odd {
        if let Resource::List(list) = odd {
            list.truncate(LIST_BYTES);
        }
    }
    let Some(rust) = rust(&plain) else {
        return Ok(None);
    };
    let mut ours = ours(case);
    if !ours.seen {
        ours.ran.outbox.clone_from(&rust.ran.outbox);
    }
    Difference::of_runs(&case.name, &unlisted(&rust.ran), &unlisted(&ours.ran), Parts::clone)?;
    Ok(Some(rust))
}

/// At the end the books have exactly the pages that were not given back.
pub(crate) fn books_fit(case: &str, books: &session::Books, holdings: &Holdings) -> Result<(), Box<Difference>> {
    let mut held: Vec<u64> = books.buffers().map(|b| b.handle).collect();
    held.sort_unstable();
    let in_use: Vec<u64> = holdings.in_use.iter().map(|h| h.0).collect();
    if held == in_use {
        return Ok(());
    }
    let (rust, session) = (format!("in use {in_use:?}"), format!("{held:?}"));
    Err(Box::new(Difference { case: case.into(), at: "books".into(), rust, session }))
}
