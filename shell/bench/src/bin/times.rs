//! How long an opening, a close and a Timeout take over one world, the bus included, by the Rust and by the session.
//!
//! `times [COUNT]`      the middle one of so many runs each; 200 if left out

use std::cell::RefCell;
use std::rc::Rc;
use std::time::{Duration, Instant};

use oracle::run::{self, Driver};
use session::{Session, UndoList};
use station::over::Over;
use world::plan::{Behaviour, Plan, Which, NEVER};
use world::registers::QUERY_FW;
use world::World;

fn rust(plan: &Plan) -> [Duration; 2] {
    let mut driver = Driver::new(Rc::new(RefCell::new(World::new(plan.clone()))));
    let start = Instant::now();
    let good = run::open_within(&mut driver, |f| f());
    let opening = start.elapsed();
    let start = Instant::now();
    if good {
        run::close_within(&mut driver, |f| f());
    }
    [opening, start.elapsed()]
}

fn ours(plan: &Plan) -> [Duration; 2] {
    let mut world = World::new(plan.clone());
    let (mut session, mut undo) = (Box::new(Session::new()), UndoList::new(&mut []));
    let mut over = Over::new(&mut world);
    let start = Instant::now();
    let good = session.open(&mut over, &mut undo) == Ok(session::Outcome::Open);
    let opening = start.elapsed();
    let start = Instant::now();
    if good {
        session.close(&mut over, &mut undo).expect("an open session");
    }
    [opening, start.elapsed()]
}

fn middle(mut all: Vec<Duration>) -> Duration {
    all.sort_unstable();
    all[all.len() / 2]
}

/// The two sides in turn, so that both have the same machine.
fn both(plan: &Plan, count: usize, part: usize) -> [Duration; 2] {
    let runs: Vec<[Duration; 2]> = (0..count).map(|_| [rust(plan)[part], ours(plan)[part]]).collect();
    [0, 1].map(|side| middle(runs.iter().map(|r| r[side]).collect()))
}

fn main() {
    let count = std::env::args().nth(1).and_then(|n| n.parse().ok()).unwrap_or(200).max(1);
    let obedient = Plan::obedient();
    let mut endless = Plan::obedient();
    endless.card.commands = vec![(Which::Opcode(QUERY_FW), Behaviour { polls: NEVER, status: 0 })];
    let all =
        [("opening", &obedient, count, 0), ("close", &obedient, count, 1), ("Timeout", &endless, count / 20 + 1, 0)];
    for (name, plan, count, part) in all {
        let [rust, ours] = both(plan, count, part);
        println!("| {name} | {} µs | {} µs |", rust.as_micros(), ours.as_micros());
    }
}
