//! Client commands, undo, lending, quiesce and close on an open session.

mod common;

use common::{assert_settled, lines, opened, ops, plan, refused, take, with_command};
use oracle::run::{self, Driver};
use world::plan::{Behaviour, Plan, NEVER};
use world::registers::*;
use world::results::{Closing, Stop, Undo};
use world::trace::{Post, Trace};

/// Client opcodes.
const FIRST: u16 = 0x00a;
const SECOND: u16 = 0x012;

const INBOX: u64 = 0x4000_0000;
const OUTBOX: u64 = 0x4000_1000;

fn undo(op: u16, in_mod: u32) -> Undo {
    Undo { op, op_mod: 1, in_mod, in_param: 0x1_0000_0002 }
}

fn post(trace: &Trace) -> Post {
    let mut posts = trace.posts();
    let post = posts.next().expect("one command").clone();
    assert_eq!(posts.next(), None);
    post
}

/// The driver's inbox or outbox.
fn mailbox(driver: &Driver, n: usize) -> Vec<u8> {
    driver.mailboxes()[n].clone().unwrap()
}

#[test]
fn the_five_forms() {
    let (world, mut driver) = opened(Plan::obedient());
    let posted = |op, in_param, out_param, inbox: Option<&[u8]>| Post {
        op,
        op_mod: 0xff,
        in_mod: 7,
        in_param,
        out_param,
        inbox: inbox.map(<[u8]>::to_vec),
    };
    let done = run::imm(&mut driver, FIRST, 0xff, 7, 0x1_0000_0002).unwrap();
    assert!(done.immediate.is_some() && done.outbox.is_none());
    assert_eq!(post(&take(&world)), posted(FIRST, 0x1_0000_0002, 0, None));

    let done = run::with_in(&mut driver, FIRST, 0xff, 7, &[1, 2]).unwrap();
    assert!(done.immediate.is_none() && done.outbox.is_none());
    assert_eq!(post(&take(&world)), posted(FIRST, INBOX, 0, Some(&[1, 2])));

    let done = run::in_imm(&mut driver, FIRST, 0xff, 7, &[3]).unwrap();
    assert!(done.immediate.is_some() && done.outbox.is_none());
    assert_eq!(post(&take(&world)), posted(FIRST, INBOX, 0, Some(&[3])));

    let done = run::with_out(&mut driver, FIRST, 0xff, 7).unwrap();
    assert_eq!(done.outbox.unwrap(), mailbox(&driver, 1));
    assert_eq!(post(&take(&world)), posted(FIRST, 0, OUTBOX, None));

    let done = run::in_out(&mut driver, FIRST, 0xff, 7, &[4]).unwrap();
    assert_eq!(done.outbox.unwrap(), mailbox(&driver, 1));
    assert_eq!(post(&take(&world)), posted(FIRST, INBOX, OUTBOX, Some(&[4])));
}

#[test]
fn a_query_of_a_client_gets_its_reply() {
    let (_, mut driver) = opened(plan(|p| p.card.replies.adapter = vec![0xee; 4096]));
    assert_eq!(mailbox(&driver, 1), [0xee; 4096]);
    let reply = run::with_out(&mut driver, QUERY_DEV_CAP, 0, 0).unwrap().outbox.unwrap();
    assert_eq!(reply[..168], world::plan::input_l());
    assert_eq!(reply[168..], [0; 4096 - 168], "the outbox was zeroed before");
}

#[test]
fn busy_leaves_the_toggle_and_has_zeroed_and_filled() {
    let (world, mut driver) = opened(with_command(FIRST, Behaviour::after(NEVER)));
    run::with_out(&mut driver, SECOND, 0, 0).unwrap();
    assert_eq!(run::imm(&mut driver, FIRST, 0, 0, 0), refused(7, &[60_000_000]));
    let toggle = driver.state().unwrap().toggle;
    take(&world);
    assert_eq!(run::in_out(&mut driver, SECOND, 0, 0, &[9]), refused(8, &[0]));
    assert_eq!(lines(&take(&world)).len(), 1, "one status read");
    assert_eq!(driver.state().unwrap().toggle, toggle);
    assert_eq!(mailbox(&driver, 0)[..2], [9, 0]);
    assert_eq!(mailbox(&driver, 1), [0; 4096]);
}

#[test]
fn input_longer_than_the_inbox_is_outside() {
    let (_, mut driver) = opened(Plan::obedient());
    assert!(matches!(run::with_in(&mut driver, FIRST, 0, 0, &[0; 4097]), Err(Stop::Outside(_))));
}

#[test]
fn undo_newest_first_down_to_the_mark() {
    let (world, mut driver) = opened(Plan::obedient());
    for n in 0..4 {
        run::push_undo(&mut driver, undo(FIRST, n)).unwrap();
    }
    assert_eq!(run::undo_to(&mut driver, 2), Ok(()));
    let sent: Vec<(u8, u32, u64)> = take(&world).posts().map(|p| (p.op_mod, p.in_mod, p.in_param)).collect();
    assert_eq!(sent, [(1, 3, 0x1_0000_0002), (1, 2, 0x1_0000_0002)]);
    assert_eq!(driver.state().unwrap().undo, [undo(FIRST, 0), undo(FIRST, 1)]);
    assert_eq!(run::close(&mut driver), Ok(Closing::Clean));
    assert_eq!(ops(&take(&world))[..3], [FIRST, FIRST, CLOSE_HCA]);
    assert_settled(&world);
}

#[test]
fn a_failed_undo_breaks_the_session() {
    let (world, mut driver) = opened(with_command(SECOND, Behaviour::status(5)));
    for op in [FIRST, SECOND, FIRST] {
        run::push_undo(&mut driver, undo(op, 0)).unwrap();
    }
    take(&world);
    assert_eq!(run::undo_to(&mut driver, 0), refused(23, &[]));
    assert_eq!(ops(&take(&world)), [FIRST, SECOND]);
    let state = driver.state().unwrap();
    assert_eq!((state.broken, state.undo), (true, vec![undo(FIRST, 0)]));
    assert_eq!(run::undo_to(&mut driver, 0), refused(23, &[]));
    assert_eq!(run::undo_to(&mut driver, 1), Ok(()));
    assert_eq!(lines(&take(&world)), [""; 0]);
    assert_eq!(run::close(&mut driver), Ok(Closing::Reset));
    assert_eq!(ops(&take(&world)), []);
    assert_settled(&world);
}

#[test]
fn lending_and_giving_back() {
    let (world, mut driver) = opened(Plan::obedient());
    let lent: Vec<u64> = [0, 1, 4096, 4097].map(|bytes| run::lend(&mut driver, bytes).unwrap().pages).to_vec();
    assert_eq!(lent, [1, 1, 1, 2]);
    assert_eq!(driver.state().unwrap().lent.len(), 4);
    take(&world);
    assert_eq!(run::close(&mut driver), Ok(Closing::Clean));
    let freed: Vec<String> = lines(&take(&world)).into_iter().filter(|l| l.starts_with("free h")).collect();
    let first: Vec<&str> = freed[..5].iter().map(|l| l.split(' ').nth(1).unwrap()).collect();
    assert_eq!(first, ["h19", "h20", "h21", "h22", "h5"], "lent ones, then the first range");
    let last: Vec<&str> = freed[18..].iter().map(|l| l.split(' ').nth(1).unwrap()).collect();
    assert_eq!(last, ["h4", "h3", "h1", "h2"], "auxiliary, firmware, inbox, outbox");
    assert_settled(&world);
}

#[test]
fn a_lending_that_fails_changes_nothing() {
    let (world, mut driver) = opened(plan(|p| p.host.null = vec![18]));
    let before = driver.state();
    assert_eq!(run::lend(&mut driver, 1), refused(5, &[]));
    assert_eq!(run::lend(&mut driver, u64::MAX), refused(5, &[]));
    assert_eq!(driver.state(), before);
    let asked: Vec<String> = lines(&take(&world)).into_iter().filter(|l| l.starts_with("alloc")).collect();
    assert_eq!(asked[asked.len() - 2..], ["alloc 1 -> null", "alloc 4503599627370496 -> fail"]);
}

#[test]
fn quiesce_stops_without_freeing() {
    let (world, mut driver) = opened(Plan::obedient());
    run::push_undo(&mut driver, undo(FIRST, 0)).unwrap();
    take(&world);
    assert_eq!(run::quiesce(&mut driver), Ok(()));
    let trace = take(&world);
    assert_eq!(ops(&trace)[..2], [FIRST, CLOSE_HCA]);
    let tail = lines(&trace);
    assert_eq!(tail[tail.len() - 3..], ["regw 0 8069c 00000000 -> ok", "cfgr16 04 -> 0406", "cfgw16 04 0402 -> ok"]);
    let state = driver.state().unwrap();
    assert_eq!((state.broken, state.silent, state.undo.len()), (true, true, 0));
    assert_eq!(world.borrow().bus.in_use().len(), 18);
    assert_eq!(run::quiesce(&mut driver), Ok(()));
    assert_eq!(lines(&take(&world)).len(), 3, "no command the second time");
    assert_eq!(run::close(&mut driver), Ok(Closing::Reset));
    assert_settled(&world);
}

#[test]
fn clients_still_run_on_a_broken_session() {
    let (world, mut driver) = opened(Plan::obedient());
    run::quiesce(&mut driver).unwrap();
    assert!(run::imm(&mut driver, FIRST, 0, 0, 0).is_ok());
    assert!(run::lend(&mut driver, 1).is_ok());
    assert_eq!(run::close(&mut driver), Ok(Closing::Reset));
    assert_settled(&world);
}

#[test]
fn a_refused_unmap_is_followed_by_a_reset() {
    for op in [CLOSE_HCA, UNMAP_ICM, UNMAP_ICM_AUX, UNMAP_FA] {
        let (world, mut driver) = opened(with_command(op, Behaviour::status(1)));
        assert_eq!(run::close(&mut driver), Ok(Closing::Reset));
        assert_eq!(ops(&take(&world)).last(), Some(&op));
        assert_settled(&world);
    }
}

#[test]
fn a_card_can_be_opened_again_after_a_close() {
    let (world, mut driver) = opened(Plan::obedient());
    assert_eq!(run::close(&mut driver), Ok(Closing::Clean));
    assert!(run::open(&mut driver).is_ok());
    assert_eq!(run::close(&mut driver), Ok(Closing::Clean));
    assert_settled(&world);
}

#[test]
fn calls_without_a_session_are_outside() {
    let (_, mut driver) = run::in_world(Plan::obedient());
    assert!(matches!(run::close(&mut driver), Err(Stop::Outside(_))));
    assert!(matches!(run::lend(&mut driver, 1), Err(Stop::Outside(_))));
}
