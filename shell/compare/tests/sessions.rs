//! Whole sessions beside the Rust. The long run is `--bin sessions`.

use compare::sessions::beside::{differ, ours, rust, same, Ran, Run};
use compare::sessions::cases::{self, Case, ENDLESS, STATUSES};
use world::plan::Behaviour;
use world::registers::MAP_ICM;
use world::results::{Closing, Refusal};
use world::trace::Event;

/// Without optimisation only every so-manieth of a list is run.
const STRIDE: usize = if cfg!(debug_assertions) { 29 } else { 1 };
const SEEDS: u64 = if cfg!(debug_assertions) { 100 } else { 10_000 };

fn compared(case: &Case) -> Run {
    match same(case) {
        Ok(run) => run.unwrap_or_else(|| panic!("{}: outside the domain", case.name)),
        Err(difference) => panic!("{difference}"),
    }
}

fn posts(ran: &Ran) -> u64 {
    (ran.opening.posts().count() + ran.closing.posts().count()) as u64
}

fn refused(ran: &Ran) -> Option<(u32, Closing)> {
    let Refusal { number, closing, .. } = ran.opened.as_ref().err()?;
    Some((*number, closing.expect("a failed opening was closed")))
}

#[test]
fn the_plans_themselves() {
    for case in cases::variants() {
        let run = compared(&case);
        assert_eq!(refused(&run.ran), None, "{}", case.name);
        assert_eq!(run.ran.closed, case.close.then_some(Closing::Clean), "{}", case.name);
        assert!(run.ran.misuse.is_empty(), "{}", case.name);
    }
}

#[test]
fn a_range_in_several_mailboxes() {
    let case = cases::variants().into_iter().find(|c| c.name == "several mailboxes").expect("such a plan");
    let run = compared(&case);
    let maps: Vec<u32> = run.ran.opening.posts().filter(|p| p.op == MAP_ICM).map(|p| p.in_mod).collect();
    assert_eq!(maps.iter().filter(|n| **n == 256).count(), 4, "{maps:?}");
    assert_eq!(maps.len(), 17, "{maps:?}");
}

/// Every call of an opening and of a close, reported failed, and taken all the same or not.
#[test]
fn every_bus_call_failed_in_turn() {
    let mut sessions = 0;
    for case in cases::variants() {
        let calls = rust(&case).expect("inside the domain").calls[1];
        for call in (0..calls).step_by(STRIDE) {
            compared(&case.with_fault(call, false));
            compared(&case.with_fault(call, true));
            sessions += 2;
        }
    }
    println!("{sessions} sessions");
}

/// A list is given back once, right behind the call that gave it, where it is not null.
#[test]
fn every_list_goes_back_once() {
    for case in cases::variants() {
        let run = ours(&case);
        let events: Vec<Event> = run.ran.opening.events().collect();
        let lists =
            events.iter().filter(|e| matches!(e, Event::Resource { answer: world::bus::Resource::List(_), .. }));
        let back = events.iter().filter(|e| matches!(e, Event::FreePool { .. }));
        assert_eq!(lists.count(), back.count(), "{}", case.name);
    }
}

#[test]
fn every_command_with_each_status() {
    let mut sessions = 0;
    for case in cases::variants() {
        let commands = posts(&rust(&case).expect("inside the domain").ran);
        for command in (0..commands).step_by(STRIDE) {
            for status in STATUSES {
                compared(&case.with_command(command, Behaviour::status(status)));
                compared(&case.with_command(command, Behaviour { polls: 3, status }));
                sessions += 2;
            }
        }
    }
    println!("{sessions} sessions");
}

/// A command that never ends: 60,000,000 µs, and the catastrophic buffer where it is known.
#[test]
fn every_command_with_a_timeout() {
    let case = &cases::variants()[3];
    let commands = posts(&rust(case).expect("inside the domain").ran);
    let mut ends = Vec::new();
    for command in (0..commands).step_by(STRIDE) {
        let run = compared(&case.with_command(command, ENDLESS));
        ends.push(refused(&run.ran).map(|(number, _)| number));
    }
    println!("{} sessions", ends.len());
    assert!(ends.contains(&Some(7)), "{ends:?}");
    assert!(STRIDE > 1 || ends.contains(&None), "QUERY_ADAPTER and the closing: {ends:?}");
}

/// GO at any read of the status dword: Busy before a command, one poll more behind it, nothing at the last read.
#[test]
fn every_status_read_shows_go_once() {
    for case in cases::variants().iter().take(4) {
        let reads = rust(case).expect("inside the domain").reads;
        let runs: Vec<Run> = (0..reads).step_by(STRIDE).map(|read| compared(&case.with_go(read))).collect();
        println!("{} sessions", runs.len());
        assert!(runs.iter().any(|r| refused(&r.ran).is_some_and(|(number, _)| number == 8)));
    }
}

#[test]
fn every_wait_at_the_change_of_its_stalls() {
    let case = &cases::variants()[0];
    let commands = posts(&rust(case).expect("inside the domain").ran);
    for command in (0..commands).step_by(STRIDE) {
        for polls in [1, 2, 999, 1_000, 1_001] {
            compared(&case.with_command(command, Behaviour::after(polls)));
        }
    }
    for polls in [600_990, 600_991, 600_992] {
        compared(&case.with_command(0, Behaviour::after(polls)));
    }
}

#[test]
fn each_refused_reply() {
    for (number, case) in cases::refused_replies() {
        let run = compared(&case);
        assert_eq!(refused(&run.ran), Some((number, Closing::Clean)), "{}", case.name);
    }
}

#[test]
fn sessions_by_seed() {
    for seed in 0..SEEDS {
        if let Err(difference) = same(&cases::seeded(seed)) {
            panic!("{difference}");
        }
    }
}

/// The part in which a session of another case is told from the Rust's run.
fn found(case: &Case, other: &Case) -> String {
    let rust = rust(case).expect("inside the domain").ran;
    let difference = differ(case, &rust, ours(other)).expect_err("another session");
    assert!(difference.to_string().contains(&case.name), "{difference}");
    difference.at.split(',').next().expect("a part").to_string()
}

/// A session that asks, posts, tells or leaves something else is told apart.
#[test]
fn a_wrong_session_is_found() {
    let case = &cases::variants()[3];
    differ(case, &rust(case).expect("inside the domain").ran, ours(case)).expect("the same");
    let other = |change: &dyn Fn(&mut Case)| {
        let mut other = case.clone();
        change(&mut other);
        found(case, &other)
    };
    assert_eq!(other(&|c| c.plan.attributes.original ^= 1), "opening");
    assert_eq!(other(&|c| c.plan.card.replies.cap[0x43] ^= 1), "opened");
    assert_eq!(other(&|c| c.plan.card.replies.ports[0][0x12] ^= 1), "opened");
    assert_eq!(other(&|c| c.plan.card.replies.fw[0x37] ^= 1), "state");
    assert_eq!(other(&|c| c.undo[0].in_param ^= 1), "state");
    assert_eq!(other(&|c| c.close = false), "closing");
    assert_eq!(other(&|c| c.plan.card.replies.adapter[0x20] ^= 1), "outbox");
}

/// Each part of a run counts.
#[test]
fn every_part_is_compared() {
    let case = &cases::variants()[0];
    let rust = rust(case).expect("inside the domain").ran;
    let changed = |change: &dyn Fn(&mut Ran)| {
        let mut run = ours(case);
        change(&mut run.ran);
        differ(case, &rust, run).expect_err("another run").at
    };
    let with = |part: &str, change: &dyn Fn(&mut Ran)| {
        let at = changed(change);
        assert!(at.starts_with(&format!("{part},")), "{part}: {at}");
    };
    with("opening", &|r| r.opening.push(Event::Stall { us: 1 }));
    with("opened", &|r| r.opened.as_mut().expect("open").layout.total += 1);
    with("state", &|r| r.state.as_mut().expect("open").toggle ^= 1);
    with("closing", &|r| r.closing.push(Event::FreePool { index: 1 }));
    with("closed", &|r| r.closed = Some(Closing::Reset));
    with("inbox", &|r| r.inbox[7] ^= 1);
    with("outbox", &|r| r.outbox[4095] ^= 1);
    with("holdings", &|r| r.holdings.attributes ^= 1);
    with("misuse", &|r| r.misuse.push("something".into()));
}

/// One byte of one posted mailbox.
#[test]
fn a_posted_byte_is_compared() {
    let case = &cases::variants()[0];
    let rust = rust(case).expect("inside the domain").ran;
    for number in 0..posts(&rust) as usize {
        let mut run = ours(case);
        let mut at = 0;
        let mut changed = world::trace::Trace::default();
        for event in run.ran.opening.events() {
            changed.push(posted_otherwise(event, &mut at, number));
        }
        run.ran.opening = changed;
        let wrong = at > number && run.ran.opening != rust.opening;
        assert_eq!(differ(case, &rust, run).is_err(), wrong, "command {number}");
    }
}

/// The event; of command `number` with another last byte in the inbox, where it has one.
fn posted_otherwise(event: Event, at: &mut usize, number: usize) -> Event {
    let Event::Post(mut post) = event else {
        return event;
    };
    if *at == number {
        if let Some(last) = post.inbox.as_mut().and_then(|b| b.last_mut()) {
            *last ^= 1;
        }
    }
    *at += 1;
    Event::Post(post)
}
