//! The openings and closes that are stored for the gate.

use world::bus::Resource;
use world::plan::{put_be16, Behaviour, OddMap, Plan, Which, NEVER};
use world::registers::*;
use world::trace::Event;

use super::beside::rust;
use super::cases::{obedient, refused_replies, variants, Case, ENDLESS};

/// A card that obeys, without undo records, with one thing changed.
fn changed(name: &str, change: impl FnOnce(&mut Plan)) -> Case {
    let mut plan = obedient();
    change(&mut plan);
    Case { undo: Vec::new(), ..Case::new(name, plan) }
}

fn ending(op: u16, behaviour: Behaviour) -> Case {
    changed(&format!("{op:#x} {behaviour:?}"), |p| p.card.commands = vec![(Which::Opcode(op), behaviour)])
}

/// The calls of an opening and a close that fit, by their numbers.
fn calls(case: &Case, fits: impl Fn(&Event) -> bool) -> Vec<u64> {
    let run = rust(case).expect("inside the domain").ran;
    let calls = run.opening.events().chain(run.closing.events()).filter(Event::is_call);
    calls.zip(0..).filter(|(e, _)| fits(e)).map(|(_, n)| n).collect()
}

/// The call number `n`, from 0, of those that fit is reported failed.
fn failing_at(n: usize, fits: impl Fn(&Event) -> bool, taken: bool) -> Case {
    let case = changed("obedient", |_| {});
    case.with_fault(calls(&case, fits)[n], taken)
}

fn failing(fits: impl Fn(&Event) -> bool, taken: bool) -> Case {
    failing_at(0, fits, taken)
}

/// A write of the register at that offset of the first BAR.
pub(crate) fn written(at: u64) -> impl Fn(&Event) -> bool {
    move |e| matches!(e, Event::RegisterWrite { bar: BAR_DCS, offset, .. } if *offset == at)
}

/// A read there.
pub(crate) fn read(at: u64) -> impl Fn(&Event) -> bool {
    move |e| matches!(e, Event::RegisterRead { bar: BAR_DCS, offset, .. } if *offset == at)
}

/// Stopped before the first command.
fn early() -> Vec<Case> {
    vec![
        failing(|e| matches!(e, Event::Attributes { .. }), false),
        failing(|e| matches!(e, Event::Attributes { call: world::bus::AttributeCall::Enable, .. }), true),
        changed("owned", |p| p.card.owner = 0x0100_0000),
        failing(read(OWNER), true),
        failing(|e| matches!(e, Event::ConfigRead { bits: 32, offset: 0x3c, .. }), false),
        changed("semaphore held", |p| p.card.semaphore = vec![20_000]),
        failing(written(RESET), true),
        changed("vendor away", |p| p.card.absent = vec![3_000]),
        failing_at(1, |e| matches!(e, Event::ConfigRead { bits: 32, offset: 0x18, .. }), false),
        changed("null inbox", |p| p.host.null = vec![0]),
        failing(|e| matches!(e, Event::Map { .. }), false),
        changed("null outbox", |p| p.host.null = vec![1]),
        changed("short outbox", |p| p.host.odd_maps = vec![(1, OddMap { address: None, bytes: Some(0) })]),
        changed("null lists", |p| p.resources.odd = (0..6).map(|i| (i, Resource::Null)).collect()),
    ]
}

/// Buffers that are not to be had, at each place.
fn memory() -> Vec<Case> {
    let null = |n: u64| changed(&format!("null {n}"), |p| p.host.null = vec![n]);
    let odd = |n: u64| {
        changed(&format!("short {n}"), |p| p.host.odd_maps = vec![(n, OddMap { address: None, bytes: Some(1) })])
    };
    vec![null(2), odd(2), null(3), odd(9)]
}

/// Each command of an opening with a status, a Timeout, or a bus call that fails.
fn commands() -> Vec<Case> {
    let status = |op: u16| ending(op, Behaviour { polls: 1, status: 8 });
    let mut all = vec![status(QUERY_FW), status(MAP_FA), status(RUN_FW), status(MOD_STAT_CFG), status(QUERY_DEV_CAP)];
    all.extend([status(QUERY_PORT), status(SET_ICM_SIZE), status(MAP_ICM_AUX), status(MAP_ICM), status(INIT_HCA)]);
    all.extend([ending(QUERY_FW, ENDLESS), ending(QUERY_DEV_CAP, ENDLESS), ending(QUERY_ADAPTER, ENDLESS)]);
    all.push(changed("GO at the start", |p| p.card.start.polls = NEVER));
    all.push(failing(written(GO_WRITE), false));
    all.push(failing(read(GO_WRITE - 8), false));
    all.push(failing_at(12, written(GO_WRITE), true));
    all.push(failing_at(30, read(GO_WRITE), true));
    all.push(ending(QUERY_FW, Behaviour::after(1_002)));
    let mut func = ending(QUERY_FUNC, Behaviour::status(8));
    put_be16(&mut func.plan.card.replies.cap, 0x26, 0x20);
    all.push(func);
    all
}

/// Closings that do not go by commands alone.
fn closings() -> Vec<Case> {
    let status = |op: u16| ending(op, Behaviour::status(1));
    let kept = |op: u16, behaviour: Behaviour| {
        let mut case = ending(op, behaviour);
        case.plan.card.semaphore = vec![0, 20_000];
        case
    };
    let mut undo = Case::new("undo fails", obedient());
    undo.plan.card.commands = vec![(Which::Opcode(0x020), Behaviour::status(3))];
    let mut all = vec![status(CLOSE_HCA), status(UNMAP_ICM), status(UNMAP_ICM_AUX), status(UNMAP_FA), undo];
    all.extend([kept(CLOSE_HCA, ENDLESS), kept(QUERY_FW, ENDLESS), kept(UNMAP_FA, Behaviour::status(1))]);
    all
}

/// One reply for each number from 10 to 17.
fn replies() -> Vec<Case> {
    let all = refused_replies();
    let first = |number: u32| all.iter().find(|(n, _)| *n == number).expect("such a reply").1.clone();
    (10..=17).map(first).collect()
}

/// All cases, good ones first.
pub fn cases() -> Vec<Case> {
    [variants(), early(), memory(), commands(), closings(), replies()].concat()
}
