//! The trace: one line for each event, waits folded without loss.

use world::bus::{Bus, Handle};
use world::plan::Plan;
use world::trace::{Event, Trace};
use world::traced::Traced;
use world::World;

fn read(value: u32) -> Event {
    Event::RegisterRead { bar: 0, offset: 0x80698, answer: Some(value) }
}

fn stall(us: u64) -> Event {
    Event::Stall { us }
}

/// A read and a stall, so many times.
fn waits(us: u64, times: usize) -> Vec<Event> {
    (0..times).flat_map(|_| [read(1), stall(us)]).collect()
}

fn trace(events: &[Event]) -> Trace {
    let mut trace = Trace::default();
    events.iter().for_each(|e| trace.push(e.clone()));
    trace
}

#[test]
fn folding_loses_nothing() {
    let events =
        [vec![read(1), read(1)], waits(1, 3), waits(100, 2), vec![read(2), stall(100), stall(100), read(2), read(3)]]
            .concat();
    let trace = trace(&events);
    assert_eq!(trace.events().collect::<Vec<_>>(), events);
    let lines: Vec<String> = events.iter().map(Event::to_string).collect();
    assert_eq!(trace.full(), lines.join("\n") + "\n");
    assert_eq!(trace.stalls(), (7, 3 + 4 * 100));
}

#[test]
fn folded_form() {
    let events = [vec![read(1)], waits(1, 999), vec![read(1), stall(100), read(2)]].concat();
    let expected = "\
regr 0 80698 -> 00000001
x999 regr 0 80698 -> 00000001; stall 1
regr 0 80698 -> 00000001
stall 100
regr 0 80698 -> 00000002
";
    assert_eq!(trace(&events).folded(), expected);
}

#[test]
fn traces_differ_where_events_do() {
    let one = trace(&[read(1), stall(1), read(1)]);
    assert_eq!(one, trace(&[read(1), stall(1), read(1)]));
    assert_ne!(one, trace(&[read(1), stall(1)]));
    assert_ne!(one, trace(&[read(1), stall(1), read(2)]));
    assert_ne!(one, trace(&[read(1), stall(2), read(1)]));
}

#[test]
fn a_line_for_every_call() {
    let mut plan = Plan::obedient();
    plan.faults = vec![world::plan::Fault { call: 4, taken: false }];
    let mut bus = Traced::new(World::new(plan));
    bus.config_read16(4);
    bus.config_write32(0x10, 0xf000_0000);
    bus.allocate(1);
    bus.map(Handle(1), 4096);
    bus.register_write(0, 0x8069c, 0);
    bus.resource(5);
    bus.stall(7);
    bus.free_pool(2);
    bus.unmap(Handle(1));
    bus.free(Handle(1), 1);
    let expected = "\
cfgr16 04 -> 0006
cfgw32 10 f0000000 -> ok
alloc 1 -> h1
map h1 1000 -> 40000000 1000
regw 0 8069c 00000000 -> fail
bar 5 -> fail
stall 7
free_pool 2
unmap h1 -> ok
free h1 1 -> ok
";
    assert_eq!(bus.take().full(), expected);
    assert_eq!(bus.take().full(), "");
}
