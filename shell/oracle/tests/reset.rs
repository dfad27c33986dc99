//! The reset and its limits, in an opening and in a closing.

mod common;

use common::{assert_settled, failed, lines, open, opened, plan, reads, take, with_command};
use oracle::run;
use world::plan::{Behaviour, Capability, Plan};
use world::registers::*;
use world::results::Closing;
use world::trace::{Event, Trace};

fn stalls_of(trace: &Trace, wanted: u64) -> usize {
    trace.events().filter(|e| *e == Event::Stall { us: wanted }).count()
}

fn vendor_reads(trace: &Trace) -> usize {
    trace.events().filter(|e| matches!(e, Event::ConfigRead { bits: 16, offset: 0, .. })).count()
}

fn config_writes(trace: &Trace) -> Vec<String> {
    lines(trace).into_iter().filter(|l| l.starts_with("cfgw")).collect()
}

#[test]
fn semaphore_in_10_001_reads() {
    let (_, _, result, trace) = open(plan(|p| p.card.semaphore = vec![10_000]));
    assert!(result.is_ok());
    assert_eq!((reads(&trace, RESET_SEMAPHORE), stalls_of(&trace, 1_000)), (10_001, 10_000));

    let (world, _, result, trace) = open(plan(|p| p.card.semaphore = vec![10_001]));
    assert_eq!(result, failed(3, &[], Closing::Clean));
    assert_eq!((reads(&trace, RESET_SEMAPHORE), stalls_of(&trace, 1_000)), (10_001, 10_000));
    let tail = lines(&trace);
    let end = ["regr 0 f03fc -> 01000000", "regw 0 8069c 00000000 -> ok", "stall 1000000", "attr set 7 -> 0"];
    assert_eq!(tail[tail.len() - 4..], end);
    assert_settled(&world);
}

#[test]
fn vendor_in_2_000_reads() {
    let (_, _, result, trace) = open(plan(|p| p.card.absent = vec![1_999]));
    assert!(result.is_ok());
    assert_eq!((vendor_reads(&trace), stalls_of(&trace, 1_000)), (2_000, 1_999));

    let (_, _, result, trace) = open(plan(|p| p.card.absent = vec![2_000]));
    assert_eq!(result, failed(3, &[], Closing::Clean));
    assert_eq!((vendor_reads(&trace), stalls_of(&trace, 1_000)), (2_000, 2_000));
    assert_eq!(config_writes(&trace), ["cfgw16 04 0406 -> ok"], "nothing is restored");
}

#[test]
fn limits_in_a_closing() {
    let closing = |change: fn(&mut Plan)| {
        let mut plan = with_command(CLOSE_HCA, Behaviour::status(1));
        change(&mut plan);
        let (world, mut driver) = opened(plan);
        let result = run::close(&mut driver);
        assert_eq!(world.borrow().bus.misuse(), [""; 0]);
        let in_use = world.borrow().bus.in_use().len();
        let tail = lines(&take(&world)).split_off(1);
        assert_eq!(tail[tail.len() - 3..], ["regw 0 8069c 00000000 -> ok", "stall 1000000", "attr set 7 -> 0"]);
        (result, in_use)
    };
    assert_eq!(closing(|p| p.card.semaphore = vec![0, 10_000]), (Ok(Closing::Reset), 0));
    assert_eq!(closing(|p| p.card.semaphore = vec![0, 10_001]), (Ok(Closing::Kept), 18));
    assert_eq!(closing(|p| p.card.absent = vec![0, 1_999]), (Ok(Closing::Reset), 0));
    assert_eq!(closing(|p| p.card.absent = vec![0, 2_000]), (Ok(Closing::Kept), 18));
}

#[test]
fn config_space_is_put_back() {
    let (_, _, _, trace) = open(Plan::obedient());
    let writes = config_writes(&trace);
    assert_eq!(writes[1..3], ["cfgw16 68 4f61 -> ok", "cfgw16 70 5dc0 -> ok"]);
    let offsets: Vec<&str> = writes[3..].iter().map(|l| &l[7..9]).collect();
    let order = ["00", "08", "0c", "10", "14", "18", "1c", "20", "24", "28", "2c", "30", "34", "38", "3c", "04"];
    assert_eq!(offsets, order);
    assert_eq!(writes.last().unwrap(), "cfgw32 04 00100406 -> ok");
}

#[test]
fn a_close_after_a_quiesce_puts_the_cleared_bus_master_back() {
    let (world, mut driver) = opened(Plan::obedient());
    run::quiesce(&mut driver).unwrap();
    take(&world);
    assert_eq!(run::close(&mut driver), Ok(Closing::Reset));
    assert_eq!(config_writes(&take(&world)).last().unwrap(), "cfgw32 04 00100402 -> ok");
}

#[test]
fn a_card_that_is_away_is_walked_at_0xfc() {
    let (world, mut driver, result, _) = open(plan(|p| p.card.absent = vec![5_000]));
    assert_eq!(result, failed(3, &[], Closing::Clean));
    let _ = run::open(&mut driver);
    let trace = take(&world);
    let walked = trace.events().filter(|e| matches!(e, Event::ConfigRead { bits: 16, offset: 0xfc, .. })).count();
    assert_eq!(walked, 48);
}

fn chain(capabilities: &[(u8, u8, u8)]) -> Plan {
    plan(|p| {
        p.config.chain = capabilities.iter().map(|&(at, id, next)| Capability { at, id, next }).collect();
        p.config.header[13] = p.config.chain.first().map_or(0, |c| c.at.into());
    })
}

/// The 16-bit reads of the capability walk and of the control words.
fn capability_reads(plan: Plan) -> Vec<u32> {
    let (_, _, result, trace) = open(plan);
    assert!(result.is_ok());
    let read = |e: Event| match e {
        Event::ConfigRead { bits: 16, offset, .. } if offset > 0x04 => Some(offset),
        _ => None,
    };
    trace.events().filter_map(read).collect()
}

#[test]
fn capability_walk() {
    assert_eq!(capability_reads(chain(&[])), []);
    assert_eq!(capability_reads(chain(&[(0x40, 0x05, 0)])), [0x40]);
    assert_eq!(capability_reads(chain(&[(0x40, 0x05, 0x63), (0x60, 0x10, 0)])), [0x40, 0x60, 0x68, 0x70]);
    assert_eq!(capability_reads(chain(&[(0xfc, 0x10, 0)])), [0xfc, 0x104, 0x10c]);
    assert_eq!(capability_reads(chain(&[(0x2c, 0x10, 0)])), [0x2c, 0x34, 0x3c], "no lower bound at 0x40");
    assert_eq!(capability_reads(chain(&[(0x40, 0x05, 0x60), (0x60, 0x05, 0x40)])), [0x40, 0x60].repeat(24));
    let long: Vec<(u8, u8, u8)> = (0x40..=0xfc).step_by(4).map(|at: u8| (at, 0x05, at.wrapping_add(4))).collect();
    assert_eq!(capability_reads(chain(&long)), (0x40..=0xfc).step_by(4).collect::<Vec<u32>>());
    let mut last = long;
    last[47].1 = 0x10;
    assert_eq!(capability_reads(chain(&last)).len(), 50, "found in the 48th read");
}
