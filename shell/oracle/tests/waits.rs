//! How long a command is waited for.

mod common;

use common::{failed, lines, open, opened, ops, reads, refused, take, with_command};
use oracle::run;
use world::plan::{Behaviour, Plan, NEVER};
use world::registers::*;
use world::results::Closing;

/// A client opcode.
const CLIENT: u16 = 0x00a;

fn us(stalls: u64) -> u64 {
    stalls.min(1_000) + stalls.saturating_sub(1_000) * 100
}

#[test]
fn waits_up_to_the_last() {
    for polls in [0, 1, 2, 999, 1_000, 1_001, 1_002, 600_989, 600_990] {
        let (world, mut driver) = opened(with_command(CLIENT, Behaviour::after(polls)));
        let done = run::imm(&mut driver, CLIENT, 0, 0, 0).unwrap();
        let trace = take(&world);
        assert_eq!((done.us, trace.stalls()), (us(polls), (polls, us(polls))));
        assert_eq!(reads(&trace, GO_WRITE) as u64, 1 + polls + 2);
    }
}

#[test]
fn timeout_waits_60_seconds_in_600_990_stalls() {
    let (world, mut driver) = opened(with_command(CLIENT, Behaviour::after(600_991)));
    assert_eq!(run::imm(&mut driver, CLIENT, 0, 0, 0), refused(7, &[60_000_000]));
    let trace = take(&world);
    assert_eq!(trace.stalls(), (600_990, 60_000_000));
    assert_eq!(reads(&trace, GO_WRITE), 1 + 600_991);
    assert_eq!(reads(&trace, 0x7f000), 1, "the catastrophic buffer");
    assert_eq!(trace.folded().lines().count(), 13);
    assert!(driver.state().unwrap().broken);
}

#[test]
fn trace_of_a_timeout_in_full() {
    let (world, mut driver) = opened(with_command(CLIENT, Behaviour::after(NEVER)));
    let _ = run::imm(&mut driver, CLIENT, 0, 0, 0);
    let trace = take(&world);
    let full = trace.full();
    assert_eq!(full.lines().count(), 1 + 6 + 2 + 2 * 600_990 + 1 + 1);
    assert!(full.ends_with(&format!("{}\n", lines(&trace).last().unwrap())));
}

#[test]
fn timeout_of_query_fw_does_not_know_the_buffer() {
    let (world, _, result, trace) = open(with_command(QUERY_FW, Behaviour::after(NEVER)));
    assert_eq!(result, failed(7, &[60_000_000], Closing::Reset));
    assert_eq!(ops(&trace), [QUERY_FW]);
    assert_eq!(reads(&trace, 0x7f000), 0);
    common::assert_settled(&world);
}

#[test]
fn timeout_of_query_adapter_is_passed_over() {
    let (world, mut driver, result, trace) = open(with_command(QUERY_ADAPTER, Behaviour::after(NEVER)));
    assert!(result.is_ok());
    assert_eq!(reads(&trace, 0x7f000), 1);
    assert!(!driver.state().unwrap().broken);
    assert_eq!(run::imm(&mut driver, CLIENT, 0, 0, 0), refused(8, &[0]));
    assert!(driver.state().unwrap().broken);
    take(&world);
    assert_eq!(run::close(&mut driver), Ok(Closing::Reset));
    assert_eq!(ops(&take(&world)), []);
    common::assert_settled(&world);
}

#[test]
fn query_adapter_that_ends_late_leaves_a_working_session() {
    let (world, mut driver) = opened(with_command(QUERY_ADAPTER, Behaviour::after(600_991)));
    assert!(run::imm(&mut driver, CLIENT, 0, 0, 0).is_ok());
    assert_eq!(run::close(&mut driver), Ok(Closing::Clean));
    common::assert_settled(&world);
}

#[test]
fn timeout_in_a_closing_reads_the_buffer_and_in_a_quiesce_not() {
    let late = with_command(CLOSE_HCA, Behaviour::after(NEVER));
    let (world, mut driver) = opened(late.clone());
    assert_eq!(run::close(&mut driver), Ok(Closing::Reset));
    assert_eq!(reads(&take(&world), 0x7f000), 1);
    let (world, mut driver) = opened(late);
    assert_eq!(run::quiesce(&mut driver), Ok(()));
    let trace = take(&world);
    assert_eq!((reads(&trace, 0x7f000), trace.stalls()), (0, (600_990, 60_000_000)));
    assert_eq!(ops(&trace), [CLOSE_HCA]);
}

#[test]
fn start_of_go_and_t() {
    for (t, polls, first) in [(false, 0, 1), (true, 0, 0)] {
        let (_, _, result, trace) = open(common::plan(|p| (p.card.start.t, p.card.start.polls) = (t, polls)));
        assert!(result.is_ok());
        let go = lines(&trace).into_iter().find(|l| l.starts_with("regw 0 80698")).unwrap();
        assert_eq!(go, if first == 1 { "regw 0 80698 0400a000 -> ok" } else { "regw 0 80698 04008000 -> ok" });
    }
    // GO shown at the first read: toggle 1, so T 1 after it is Busy and T 0 goes on.
    for (t, polls, busy) in [(false, 1, false), (true, 1, true), (false, 2, true), (false, NEVER, true)] {
        let (_, _, result, _) = open(common::plan(|p| (p.card.start.t, p.card.start.polls) = (t, polls)));
        assert_eq!(result.is_err(), busy, "T {t}, GO for {polls} reads");
        assert!(!busy || result == failed(8, &[0], Closing::Reset));
    }
}

#[test]
fn status_comes_with_the_wait_before_it() {
    let slow = Behaviour { polls: 1_003, status: 9 };
    assert_eq!(open(with_command(RUN_FW, slow)).2, failed(6, &[9, 1_300], Closing::Clean));
    let (_, mut driver) = opened(with_command(CLIENT, slow));
    assert_eq!(run::imm(&mut driver, CLIENT, 0, 0, 0), refused(6, &[9, 1_300]));
    assert_eq!(driver.state().map(|s| s.broken), Some(false));
}

#[test]
fn bus_failure_in_a_wait_comes_with_the_wait_so_far() {
    let slow = Behaviour::after(50);
    let (world, mut driver) = opened(with_command(CLIENT, slow));
    let before = world.borrow().bus.calls();
    run::imm(&mut driver, CLIENT, 0, 0, 0).unwrap();
    for (call, waited) in [(0, 0), (7, 0), (8, 0), (9, 1), (57, 49), (58, 50), (59, 50), (60, 50), (61, 50)] {
        let fault = world::plan::Fault { call: before + call, taken: true };
        let plan = Plan { faults: vec![fault], ..with_command(CLIENT, slow) };
        let (_, mut driver) = opened(plan);
        assert_eq!(run::imm(&mut driver, CLIENT, 0, 0, 0), refused(9, &[waited]), "call {call}");
    }
}
