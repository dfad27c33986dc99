//! Every single bus call reported failed in turn, taken and not taken.

mod common;

use common::{lines, plan, take, with_command};
use oracle::run::{self, Driver, SharedWorld};
use world::bus::AttributeCall;
use world::plan::{Behaviour, Fault, Plan};
use world::registers::*;
use world::results::{Closing, Outcome, Stop};
use world::trace::{Event, Trace};

/// The events that a fault counts.
fn calls(trace: &Trace) -> Vec<Event> {
    trace.events().filter(Event::is_call).collect()
}

/// The plan with one fault for each call of `range`, taken and not.
fn each_fault(plan: &Plan, range: std::ops::Range<u64>) -> impl Iterator<Item = (Fault, Plan)> + '_ {
    let faults = range.flat_map(|call| [false, true].map(|taken| Fault { call, taken }));
    faults.map(|f| (f, Plan { faults: vec![f], ..plan.clone() }))
}

/// Same calls up to the fault, and there the call failed.
fn assert_respected(trace: &Trace, good: &[Event], at: usize) {
    let calls = calls(trace);
    assert_eq!(calls[..at], good[..at]);
    assert!(calls[at].failed(), "{}", calls[at]);
}

/// Nothing is misused, and all pages are back or kept.
fn assert_pages(world: &SharedWorld, closing: Closing) {
    let world = &world.borrow().bus;
    assert_eq!(world.misuse(), [""; 0]);
    assert_eq!(world.in_use().is_empty(), closing != Closing::Kept);
}

/// The refusal of an obedient opening whose call number `at` fails, if any.
fn refusal(good: &[Event], at: usize) -> Option<u32> {
    let was_reset = good[..at].iter().any(|e| matches!(e, Event::RegisterWrite { offset: RESET, .. }));
    match &good[at] {
        Event::Attributes { call: AttributeCall::Supported, .. } => None,
        Event::Attributes { .. } => Some(1),
        Event::RegisterRead { offset: OWNER, .. } => Some(2),
        Event::RegisterRead { offset: RESET_SEMAPHORE, .. } | Event::RegisterWrite { offset: RESET, .. } => Some(3),
        // The 16 dwords saved; 0x34 once more; after the reset the BARs.
        Event::ConfigRead { bits: 32, .. } if was_reset => Some(4),
        Event::ConfigRead { bits: 32, .. } => (!second_pointer_read(good, at)).then_some(3),
        Event::ConfigRead { .. } | Event::ConfigWrite { .. } | Event::Resource { .. } => None,
        Event::Allocate { .. } | Event::Map { .. } => Some(5),
        Event::RegisterRead { .. } | Event::RegisterWrite { .. } => in_command(good, at).map(|_| 9),
        other => panic!("not a call of a good opening: {other}"),
    }
}

fn second_pointer_read(good: &[Event], at: usize) -> bool {
    let pointer = |e: &&Event| matches!(e, Event::ConfigRead { bits: 32, offset: 0x34, .. });
    pointer(&&good[at]) && good[..at].iter().filter(pointer).count() == 1
}

/// The opcode of the command that a call belongs to; none for the status read
/// of `Hcr::new`, and for QUERY_ADAPTER, whose failure is passed over.
fn in_command(good: &[Event], at: usize) -> Option<u32> {
    let map = good[..at].iter().rposition(|e| matches!(e, Event::Map { .. }))?;
    let maps = good[..at].iter().filter(|e| matches!(e, Event::Map { .. })).count();
    if maps == 2 && at == map + 1 {
        return None;
    }
    // A command's own GO write, or the one before it, names it.
    let end =
        good[at..].iter().position(|e| matches!(e, Event::RegisterRead { offset, .. } if *offset == HCR + 0x10))?;
    let go = good[..at + end].iter().rev().find_map(|e| match e {
        Event::RegisterWrite { offset: GO_WRITE, value, .. } => Some(u32::from_be(*value) & 0xfff),
        _ => None,
    })?;
    (go != u32::from(QUERY_ADAPTER)).then_some(go)
}

/// How the closing of a failed opening ends: 9 breaks, nothing else does.
fn closing_after(number: u32) -> Closing {
    if number == 9 {
        Closing::Reset
    } else {
        Closing::Clean
    }
}

#[test]
fn each_call_of_an_opening() {
    let (_, _, result, trace) = common::open(Plan::obedient());
    assert!(result.is_ok());
    let good = calls(&trace);
    for (fault, plan) in each_fault(&Plan::obedient(), 0..good.len() as u64) {
        let (world, mut driver, result, trace) = common::open(plan);
        let at = fault.call as usize;
        assert_respected(&trace, &good, at);
        let expected = refusal(&good, at);
        match (expected, result) {
            (None, Ok(_)) => close_after_fault(&world, &mut driver, &good[at], fault.taken),
            (Some(n), Err(Stop::Refused(r))) => {
                assert_eq!((r.number, r.closing), (n, Some(closing_after(n))), "{fault:?}: {}", good[at]);
                assert_pages(&world, Closing::Clean);
            }
            (expected, result) => panic!("{fault:?} at {}: {expected:?}, {result:?}", good[at]),
        }
    }
}

/// A close after a fault that the opening passed over. Only a QUERY_ADAPTER
/// that was posted without the driver's knowledge leaves a card that is Busy.
fn close_after_fault(world: &SharedWorld, driver: &mut Driver, failed: &Event, taken: bool) {
    let posted = matches!(failed, Event::RegisterWrite { offset: GO_WRITE, .. });
    let expected = if posted && taken { Closing::Reset } else { Closing::Clean };
    assert_eq!(run::close(driver), Ok(expected), "{failed}");
    assert_pages(world, expected);
}

#[test]
fn each_call_of_a_close() {
    let (world, mut driver) = common::opened(Plan::obedient());
    let before = world.borrow().bus.calls();
    assert_eq!(run::close(&mut driver), Ok(Closing::Clean));
    let good = calls(&take(&world));
    for (fault, plan) in each_fault(&Plan::obedient(), before..before + good.len() as u64) {
        let (world, mut driver) = common::opened(plan);
        let at = (fault.call - before) as usize;
        let result = run::close(&mut driver);
        assert_respected(&take(&world), &good, at);
        let command =
            matches!(&good[at], Event::RegisterRead { .. } | Event::RegisterWrite { offset: HCR..=GO_WRITE, .. });
        let expected = if command { Closing::Reset } else { Closing::Clean };
        assert_eq!(result, Ok(expected), "{fault:?}: {}", good[at]);
        assert_pages(&world, expected);
    }
}

/// A close that resets, because UNMAP_FA is refused.
#[test]
fn each_call_of_a_close_by_reset() {
    let refused = with_command(UNMAP_FA, Behaviour::status(1));
    let (world, mut driver) = common::opened(refused.clone());
    let before = world.borrow().bus.calls();
    assert_eq!(run::close(&mut driver), Ok(Closing::Reset));
    let good = calls(&take(&world));
    let reset = good.iter().position(|e| matches!(e, Event::ConfigRead { .. })).unwrap();
    let mut kept = 0;
    for (fault, plan) in each_fault(&refused, before + reset as u64..before + good.len() as u64) {
        let (world, mut driver) = common::opened(plan);
        let at = (fault.call - before) as usize;
        let result = run::close(&mut driver);
        assert_respected(&take(&world), &good, at);
        let saved = at < reset + 16;
        let fails =
            saved || matches!(&good[at], Event::RegisterRead { .. } | Event::RegisterWrite { offset: RESET, .. });
        let expected = if fails { Closing::Kept } else { Closing::Reset };
        assert_eq!(result, Ok(expected), "{fault:?}: {}", good[at]);
        assert_pages(&world, expected);
        kept += u32::from(fails);
    }
    assert_eq!(kept, 2 * (16 + 2), "16 dwords, the semaphore, the reset write");
}

#[test]
fn each_call_of_a_quiesce() {
    let (world, mut driver) = common::opened(Plan::obedient());
    let before = world.borrow().bus.calls();
    assert_eq!(run::quiesce(&mut driver), Ok(()));
    let good = calls(&take(&world));
    for (fault, plan) in each_fault(&Plan::obedient(), before..before + good.len() as u64) {
        let (world, mut driver) = common::opened(plan);
        assert_eq!(run::quiesce(&mut driver), Ok(()));
        assert_respected(&take(&world), &good, (fault.call - before) as usize);
        assert!(driver.state().unwrap().broken);
        assert_eq!(run::close(&mut driver), Ok(Closing::Reset));
        assert_pages(&world, Closing::Reset);
    }
}

#[test]
fn null_allocations_and_odd_maps_of_an_opening() {
    for n in 0..18 {
        let null = plan(|p| p.host.null.push(n));
        assert_buffer_fails(null, n, None);
        for bytes in [0, 0x800, 0x1001, 1 << 40] {
            let odd = world::plan::OddMap { address: None, bytes: Some(bytes) };
            assert_buffer_fails(plan(|p| p.host.odd_maps.push((n, odd))), n, Some(bytes));
        }
    }
}

/// Buffer number `n` is not had: 5, and a buffer mapped with another size is
/// unmapped and freed before anything else.
fn assert_buffer_fails(plan: Plan, n: u64, mapped: Option<u64>) {
    let (world, _, result, trace) = common::open(plan);
    assert_refused(&result, 5, Closing::Clean);
    assert_pages(&world, Closing::Clean);
    let lines = lines(&trace);
    let at = lines.iter().position(|l| match mapped {
        Some(bytes) => l.starts_with(&format!("map h{} ", n + 1)) && l.ends_with(&format!(" {bytes:x}")),
        None => l.ends_with("-> null"),
    });
    let at = at.expect("the answer stands in the trace");
    if mapped.is_some() {
        assert_eq!(lines[at + 1], format!("unmap h{} -> ok", n + 1));
        assert!(lines[at + 2].starts_with(&format!("free h{} ", n + 1)));
    } else {
        assert!(!lines[at + 1].starts_with(&format!("free h{} ", n + 1)));
    }
}

fn assert_refused<T: std::fmt::Debug>(result: &Outcome<T>, number: u32, closing: Closing) {
    match result {
        Err(Stop::Refused(r)) => assert_eq!((r.number, r.closing), (number, Some(closing))),
        other => panic!("{other:?}"),
    }
}

/// A failed owner read is no claim, so the owner is not released.
#[test]
fn an_owner_read_that_failed_but_was_taken_leaves_the_card_owned() {
    let owner = plan(|p| p.faults.push(Fault { call: 5, taken: true }));
    let (world, mut driver, result, trace) = common::open(owner);
    assert_refused(&result, 2, Closing::Clean);
    assert_eq!(lines(&trace)[5..], ["regr 0 8069c -> fail", "attr set 7 -> 0"]);
    assert_refused(&run::open(&mut driver), 2, Closing::Clean);
    assert!(lines(&take(&world)).contains(&"regr 0 8069c -> 01000000".to_string()));
}

#[test]
fn an_address_that_is_no_page_multiple_is_told() {
    let odd = world::plan::OddMap { address: Some(0x1234), bytes: None };
    let (world, _, _, _) = common::open(plan(|p| p.host.odd_maps.push((0, odd))));
    assert_eq!(world.borrow().bus.outside(), ["device address no page multiple"]);
}
