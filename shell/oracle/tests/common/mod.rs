//! What several test programs share.
#![allow(dead_code)]

use oracle::run::{self, Driver, SharedWorld};
use world::plan::{Behaviour, Plan, Which};
use world::results::{Closing, Opened, Outcome, Refusal, Stop};
use world::trace::{Event, Trace};

/// A plan with some changes.
pub fn plan(change: impl FnOnce(&mut Plan)) -> Plan {
    let mut plan = Plan::obedient();
    change(&mut plan);
    plan
}

/// The obedient plan but for the end of the commands with this opcode.
pub fn with_command(op: u16, behaviour: Behaviour) -> Plan {
    plan(|p| p.card.commands.push((Which::Opcode(op), behaviour)))
}

/// An opening by that plan, with its trace.
pub fn open(plan: Plan) -> (SharedWorld, Driver, Outcome<Opened>, Trace) {
    let (world, mut driver) = run::in_world(plan);
    let opened = run::open(&mut driver);
    let trace = world.borrow_mut().take();
    (world, driver, opened, trace)
}

/// A good opening by that plan.
pub fn opened(plan: Plan) -> (SharedWorld, Driver) {
    let (world, driver, opened, _) = open(plan);
    assert!(opened.is_ok(), "{opened:?}");
    (world, driver)
}

pub fn take(world: &SharedWorld) -> Trace {
    world.borrow_mut().take()
}

pub fn ops(trace: &Trace) -> Vec<u16> {
    trace.posts().map(|p| p.op).collect()
}

pub fn lines(trace: &Trace) -> Vec<String> {
    trace.events().map(|e| e.to_string()).collect()
}

pub fn refused<T>(number: u32, values: &[u64]) -> Outcome<T> {
    Err(Stop::Refused(Refusal::new(number, values)))
}

/// A failed opening and how its closing ended.
pub fn failed<T>(number: u32, values: &[u64], closing: Closing) -> Outcome<T> {
    Err(Stop::Refused(Refusal { closing: Some(closing), ..Refusal::new(number, values) }))
}

/// Reads of one register.
pub fn reads(trace: &Trace, at: u64) -> usize {
    trace.events().filter(|e| matches!(e, Event::RegisterRead { offset, .. } if *offset == at)).count()
}

/// The world has nothing to complain of, and all pages are back.
pub fn assert_settled(world: &SharedWorld) {
    let world = &world.borrow().bus;
    assert_eq!(world.misuse(), [""; 0]);
    assert_eq!(world.outside(), [""; 0]);
    assert_eq!(world.in_use(), []);
}
