//! Lists of calls beside the Rust. The long run is `--bin calls`.

use compare::calls::beside::{differ, ours, rust, same, Ran, Run};
use compare::calls::cases::{self, command, push, Case};
use compare::sessions::cases::STATUSES;
use world::calls::{Call, Form};
use world::plan::{Behaviour, Later};
use world::results::{Closing, Given};
use world::trace::Event;

/// Without optimisation only every so-manieth of a list is run.
const STRIDE: usize = if cfg!(debug_assertions) { 37 } else { 1 };
const SEEDS: u64 = if cfg!(debug_assertions) { 60 } else { 5_000 };

fn compared(case: &Case) -> Run {
    match same(case) {
        Ok(run) => run.unwrap_or_else(|| panic!("{}: outside the domain", case.name)),
        Err(difference) => panic!("{difference}"),
    }
}

/// The refusals of the calls, 0 where there is none.
fn numbers(ran: &Ran) -> Vec<u32> {
    ran.steps.iter().map(|s| s.given.as_ref().err().map_or(0, |r| r.number)).collect()
}

fn closed(ran: &Ran) -> Option<Closing> {
    match ran.steps.last()?.given {
        Ok(Given::Closed(c)) => Some(c),
        _ => None,
    }
}

/// The chosen list of that name.
fn chosen(name: &str) -> Case {
    cases::chosen().into_iter().find(|c| c.name == name).expect("such a list")
}

#[test]
fn the_lists_themselves() {
    for case in cases::chosen() {
        let run = compared(&case);
        let (broken, open) = (case.name == "quiesce", case.name == "left open");
        let expected = if broken { Closing::Reset } else { Closing::Clean };
        assert_eq!(closed(&run.ran), (!open).then_some(expected), "{}", case.name);
        let failed: Vec<u32> = numbers(&run.ran).into_iter().filter(|n| *n != 0).collect();
        assert_eq!(failed, if broken { vec![23] } else { Vec::new() }, "{}", case.name);
    }
}

/// Every bus call behind the opening, reported failed, and taken all the same or not.
#[test]
fn every_bus_call_failed_in_turn() {
    let (mut lists, mut seen) = (0, Vec::new());
    for case in cases::chosen() {
        let calls = compared(&case).calls;
        for call in (0..calls).step_by(STRIDE) {
            for taken in [false, true] {
                seen.extend(numbers(&compared(&case.with_fault(call, taken)).ran));
                lists += 1;
            }
        }
    }
    println!("{lists} lists");
    assert!([5, 8, 9, 23].iter().all(|n| STRIDE > 1 || seen.contains(n)));
}

#[test]
fn every_command_with_each_status() {
    let mut lists = 0;
    for case in cases::chosen() {
        let commands = compared(&case).commands;
        for command in (0..commands).step_by(STRIDE) {
            for status in STATUSES {
                compared(&case.with_command(command, Behaviour::status(status)));
                compared(&case.with_command(command, Behaviour { polls: 3, status }));
                lists += 2;
            }
        }
    }
    println!("{lists} lists");
}

/// GO at any read of the status dword: Busy before a command, one poll more behind it, nothing at the last read.
#[test]
fn every_status_read_shows_go_once() {
    let mut seen = Vec::new();
    for case in cases::chosen() {
        let reads = compared(&case).reads;
        for read in (0..reads).step_by(STRIDE) {
            seen.extend(numbers(&compared(&case.with_go(read)).ran));
        }
    }
    assert!([8, 23].iter().all(|n| STRIDE > 1 || seen.contains(n)));
}

#[test]
fn waits_at_the_change_of_the_stalls() {
    let case = chosen("forms");
    for command in (0..8).step_by(STRIDE) {
        for polls in [1, 2, 999, 1_000, 1_001] {
            let run = compared(&case.with_command(command, Behaviour::after(polls)));
            let us = run.ran.steps.iter().filter_map(|s| match &s.given {
                Ok(Given::Done(d)) => Some(d.us),
                _ => None,
            });
            let wait = if polls > 1_000 { 1_000 + 100 * (polls - 1_000) } else { polls };
            assert!(us.into_iter().any(|us| us == wait), "{polls} polls");
        }
    }
}

/// Commands that never end, what is Busy behind them, and one that ends late.
#[test]
fn commands_without_an_end() {
    for case in cases::endless() {
        let run = compared(&case);
        let (numbers, closed) = (numbers(&run.ran), closed(&run.ran));
        match case.name.split(',').next().expect("a name") {
            "undo" => assert_eq!(numbers, [0, 0, 0, 23, 0]),
            "quiesce" => assert_eq!(numbers, [0, 0, 8, 0]),
            "late" => assert_eq!(numbers, [0, 7, 8, 0, 0, 0]),
            _ => assert_eq!(numbers, [0, 7, 8, 0, 0, 23, 0]),
        }
        assert_eq!(closed, Some(Closing::Reset), "{}", case.name);
    }
}

/// The outbox is compared again once a command that zeroes it was seen done.
#[test]
fn an_outbox_behind_a_command_without_an_end() {
    let late = cases::endless().into_iter().find(|c| c.name.starts_with("late")).expect("such a list");
    assert_eq!(ours(&late).seen, [true, false, false, false, true, true]);
    let steps = |run: Run| run.ran.steps.into_iter().map(|s| s.outbox.iter().any(|b| *b != 0));
    let rust: Vec<bool> = steps(rust(&late).expect("inside the domain")).collect();
    assert_eq!(rust, [true, false, true, true, true, true], "the Rust's memory gets the late reply");
}

#[test]
fn lists_by_seed() {
    let mut compared = 0;
    for seed in 0..SEEDS {
        match same(&cases::seeded(seed)) {
            Ok(run) => compared += u64::from(run.is_some()),
            Err(difference) => panic!("{difference}"),
        }
    }
    assert!(compared > SEEDS / 2, "{compared} of {SEEDS}");
}

/// What is to be found.
fn list() -> Case {
    let mut case = chosen("mixed");
    case.calls.insert(1, command(Form::WithIn, 0x00a, &[1, 2, 3]));
    case.calls.insert(2, Call::Lend { bytes: 4096 });
    case.calls.insert(3, Call::UndoTo { mark: 7 });
    case
}

/// A session that is called otherwise, or is in another world, is told apart, and where.
#[test]
fn a_wrong_session_is_found() {
    let case = list();
    let rust = rust(&case).expect("inside the domain").ran;
    differ(&case, &rust, ours(&case)).expect("the same");
    let found = |change: &dyn Fn(&mut Case)| {
        let mut other = case.clone();
        change(&mut other);
        let difference = differ(&case, &rust, ours(&other)).expect_err("another session");
        assert!(difference.to_string().contains("mixed: call "), "{difference}");
        difference.at
    };
    let command = |c: &mut Case, change: &dyn Fn(&mut world::calls::Command)| match &mut c.calls[1] {
        Call::Command(c) => change(c),
        _ => panic!("a command"),
    };
    assert!(found(&|c| command(c, &|c| c.input[2] ^= 1)).starts_with("call 1 WithIn"), "a byte of the input");
    assert!(found(&|c| command(c, &|c| c.form = Form::InImm)).contains("result"), "the immediate");
    assert!(found(&|c| command(c, &|c| c.op_mod ^= 1)).contains("bus calls"), "the opcode modifier");
    assert!(found(&|c| c.calls[2] = Call::Lend { bytes: 4097 }).starts_with("call 2 Lend"), "the pages");
    assert!(found(&|c| c.calls[3] = push(0x020, 1)).contains("state"), "a record more");
    assert!(found(&|c| c.calls[4] = push(0x020, 2)).contains("state"), "another record");
    assert!(found(&|c| c.plan.card.replies.client ^= 1).starts_with("call 1"), "the immediate that is read");
    assert!(found(&|c| c.calls[9] = Call::Quiesce).starts_with("call 9"), "another call");
    assert!(found(&|c| c.calls.truncate(5)).contains("call 5"), "fewer calls");
    let later = |commands: Vec<(u64, Behaviour)>| Later { commands, ..Later::default() };
    assert!(found(&|c| c.later = later(vec![(1, Behaviour::status(1))])).starts_with("call 5"), "a status");
}

/// Each part of each call counts.
#[test]
fn every_part_is_compared() {
    let case = list();
    let rust = rust(&case).expect("inside the domain").ran;
    let with = |part: &str, change: &dyn Fn(&mut Ran)| {
        let mut run = ours(&case);
        change(&mut run.ran);
        let at = differ(&case, &rust, run).expect_err("another run").at;
        assert!(at.contains(part), "{part}: {at}");
    };
    for n in 0..case.calls.len() {
        with(&format!("call {n} "), &|r| r.steps[n].inbox[7] ^= 1);
        with(&format!("call {n} "), &|r| r.steps[n].outbox[4095] ^= 1);
        with(&format!("call {n} "), &|r| r.steps[n].trace.push(Event::Stall { us: 1 }));
        with(&format!("call {n} "), &|r| r.steps[n].given = Ok(Given::Closed(Closing::Kept)));
        if n + 1 < case.calls.len() {
            with("state", &|r| r.steps[n].state.as_mut().expect("open").broken ^= true);
        }
    }
    with("holdings", &|r| r.holdings.attributes ^= 1);
    with("misuse", &|r| r.misuse.push("something".into()));
}
