//! What is measured: openings and closes of one card, by the Rust and by the session, over worlds of one plan.

pub mod callgrind;

use std::cell::RefCell;
use std::hint::black_box;
use std::rc::Rc;

use oracle::run::{self, Driver};
use session::{Closing, Outcome, Session, UndoList};
use station::over::Over;
use world::plan::{put_be16, put_be64, Behaviour, OddMap, Plan, Which};
use world::registers::{MAP_FA, MAP_ICM, MAP_ICM_AUX, QUERY_FW};
use world::trace::{Event, Trace};
use world::traced::Traced;
use world::{World, PAGE};

/// A card and what is noted of its opening.
pub struct Case {
    pub name: &'static str,
    pub plan: Plan,
}

/// The polls of QUERY_FW in the two openings whose difference is that of the poll turns.
pub const POLLS: [u64; 2] = [100, 1_100];

fn polled(polls: u64) -> Plan {
    let mut plan = Plan::obedient();
    plan.card.commands = vec![(Which::Opcode(QUERY_FW), Behaviour::after(polls))];
    plan
}

/// More maps than an opening has.
const MAPS: u64 = 32;

/// QPC entries of that size; every buffer is mapped so far behind a place that all its pages fit in one block.
fn tables(entry: u16, behind: u64) -> Plan {
    let mut plan = Plan::obedient();
    let at = |n: u64| OddMap { address: Some(((n + 1) << 40) + behind), bytes: None };
    plan.host.odd_maps = (0..MAPS).map(|n| (n, at(n))).collect();
    put_be16(&mut plan.card.replies.cap, 0x82, entry);
    put_be64(&mut plan.card.replies.cap, 0xa0, u64::MAX);
    plan
}

/// The cases: two for the poll turn, then tables that grow, in few blocks and in one for each page.
pub fn cases() -> Vec<Case> {
    let of = |name: &'static str, plan: Plan| Case { name, plan };
    vec![
        of("100 polls", polled(POLLS[0])),
        of("1,100 polls", polled(POLLS[1])),
        of("QPC entry 256 (input L)", tables(256, 0)),
        of("QPC entry 1,024", tables(1024, 0)),
        of("QPC entry 4,096", tables(4096, 0)),
        of("QPC entry 16,384", tables(16384, 0)),
        of("256, odd addresses", tables(256, PAGE)),
        of("1,024, odd addresses", tables(1024, PAGE)),
        of("4,096, odd addresses", tables(4096, PAGE)),
        of("16,384, odd addresses", tables(16384, PAGE)),
    ]
}

/// What an opening has: pages, blocks, commands; and the questions of the opening and of the close, fences included.
#[derive(Clone, Copy, PartialEq, Eq, Debug)]
pub struct Size {
    pub pages: u64,
    pub blocks: u64,
    pub commands: usize,
    pub questions: [usize; 2],
}

pub fn size(plan: &Plan) -> Size {
    let shared = Rc::new(RefCell::new(Traced::new(World::new(plan.clone()))));
    let mut driver = Driver::new(shared.clone());
    run::open(&mut driver).expect("a good opening");
    let state = driver.state().expect("an open session");
    let held = [Some(state.inbox), Some(state.outbox), state.fa, state.aux].into_iter().flatten();
    let pages = held.chain(state.icm.iter().map(|(_, b)| *b)).map(|b| b.pages).sum();
    let opening = shared.borrow_mut().take();
    run::close(&mut driver).expect("a good close");
    let closing = shared.borrow_mut().take();
    let lists = opening.posts().filter(|p| [MAP_FA, MAP_ICM, MAP_ICM_AUX].contains(&p.op));
    let blocks = lists.map(|p| u64::from(p.in_mod)).sum();
    let questions = [&opening, &closing].map(questions);
    Size { pages, blocks, commands: opening.posts().count(), questions }
}

/// Each command has two fences besides its bus calls.
fn questions(trace: &Trace) -> usize {
    let asked = trace.events().filter(|e| !matches!(e, Event::Post(_) | Event::FreePool { .. }));
    asked.count() + 2 * trace.posts().count()
}

/// What is measured lies within this function, and nothing else does.
#[no_mangle]
#[inline(never)]
pub fn bench_point(f: &mut dyn FnMut()) {
    f();
    black_box(());
}

/// An opening and a close by the Rust.
pub fn rust(plan: &Plan) {
    let mut driver = Driver::new(Rc::new(RefCell::new(World::new(plan.clone()))));
    assert!(run::open_within(&mut driver, |f| bench_point(f)), "a good opening");
    assert!(run::close_within(&mut driver, |f| bench_point(f)), "a clean close");
}

/// The same by the session.
pub fn ours(plan: &Plan) {
    let mut world = World::new(plan.clone());
    let (mut session, mut undo) = (Box::new(Session::new()), UndoList::new(&mut []));
    let mut over = Over::new(&mut world);
    let mut outcome = None;
    bench_point(&mut || outcome = Some(session.open(&mut over, &mut undo)));
    assert_eq!(outcome, Some(Ok(Outcome::Open)));
    bench_point(&mut || outcome = Some(session.close(&mut over, &mut undo)));
    assert_eq!(outcome, Some(Ok(Outcome::Closed(Closing::Clean))));
}
