//! The lists that are stored for the gate.

use world::calls::{Call, Form};
use world::plan::{Behaviour, OddMap};
use world::registers::{GO_WRITE, OWNER};
use world::trace::Event;

use super::beside::{rust, rust_noted, Run, Step};
use super::cases::{chosen, command, endless, push, seeded, session, Case};
use super::stored::record;
use crate::machines::records::Record;
use crate::sessions;
use crate::sessions::cases::{obedient, STATUSES};
use crate::sessions::sample::{read, written};

/// So many lists by seed, of those with fewer lines of bus calls and bytes of input.
const SEEDED: usize = 8;
const LINES: usize = 1_000;
const BYTES: usize = 2_000;

/// An opening, undo records, and a close.
fn of_session(s: &sessions::cases::Case) -> Case {
    let close = s.close.then_some(Call::Close);
    let calls = [Call::Open].into_iter().chain(s.undo.iter().copied().map(Call::PushUndo)).chain(close);
    Case::new(s.name.clone(), s.plan.clone(), calls.collect())
}

/// The number, from the opening on, of bus call `n` of those that fit, within call `call` of the list.
fn at(case: &Case, call: usize, n: usize, fits: impl Fn(&Event) -> bool) -> u64 {
    let run = rust(case).expect("inside the domain").ran;
    let events = |s: &Step| s.trace.events().filter(Event::is_call).collect::<Vec<Event>>();
    let before: usize = run.steps[1..call].iter().map(|s| events(s).len()).sum();
    let within = events(&run.steps[call]).into_iter().zip(before as u64..).filter(|(e, _)| fits(e)).nth(n);
    within.expect("such a bus call").1
}

/// Client commands in each of which another bus call fails; the next one is posted still. In the second list the command dword is
/// reported failed but was taken, and every later command is Busy.
fn bus_failures() -> Vec<Case> {
    let commands = (0..8).map(|n| command(if n % 2 == 0 { Form::InImm } else { Form::Imm }, 0x012 + n, &[1, n as u8]));
    let undo = [push(0x020, 1), Call::UndoTo { mark: 0 }];
    let case = Case::new("commands", obedient(), session(&commands.chain(undo).collect::<Vec<Call>>()));
    // The first read, a word, the command dword, a poll, the status, both dwords of the immediate.
    let reads = [(1, 0, GO_WRITE), (5, 1, GO_WRITE), (6, 2, GO_WRITE), (7, 0, GO_WRITE - 12), (8, 0, GO_WRITE - 8)];
    let writes = [(2, GO_WRITE - 24), (3, GO_WRITE - 4), (4, GO_WRITE)];
    let posted = |case: Case, (call, offset): (usize, u64)| case.with_fault(at(&case, call, 0, written(offset)), false);
    let ended = |case: Case, (call, n, offset): (usize, usize, u64)| {
        case.with_fault(at(&case, call, n, read(offset)), call == 5)
    };
    let all = reads[1..].iter().copied().fold(writes.into_iter().fold(ended(case.clone(), reads[0]), posted), ended);
    let taken = case.with_fault(at(&case, 2, 0, written(GO_WRITE)), true);
    vec![all, taken]
}

/// Commands with a status and with waits.
fn statuses() -> Vec<Case> {
    let forms = &chosen()[0];
    let many = (0..8).fold(forms.clone(), |case, n| {
        case.with_command(n, Behaviour { polls: n, status: STATUSES[n as usize % STATUSES.len()] })
    });
    let mixed = [999, 1_000, 1_001, 2_000]
        .iter()
        .zip(0..)
        .fold(chosen()[4].clone(), |case, (polls, n)| case.with_command(n, Behaviour::after(*polls)));
    let undo = Case::new("undo", obedient(), session(&[push(0x020, 1), push(0x021, 2), Call::UndoTo { mark: 0 }]));
    vec![many, mixed, undo.with_command(1, Behaviour::status(8))]
}

/// Lendings that fail: no pages, no map, a map of another size, more than there is.
fn lendings() -> Vec<Case> {
    let mut calls = vec![Call::Lend { bytes: 1 }; 4];
    calls.extend([1 << 40, u64::MAX - 4095, 8192].map(|bytes| Call::Lend { bytes }));
    let mut case = Case::new("failing", obedient(), session(&calls));
    case.later.null = vec![0];
    case.later.odd_maps = vec![(1, OddMap { address: None, bytes: Some(0) })];
    let map = at(&case, 2, 0, |e| matches!(e, Event::Map { .. }));
    vec![case.with_fault(map, false)]
}

/// Quiesces and closes that do not go by commands alone.
fn ends() -> Vec<Case> {
    let quiesce = Case::new("quiesce", obedient(), session(&[Call::Lend { bytes: 1 }, push(0x020, 1), Call::Quiesce]));
    let owner = at(&quiesce, 3, 0, written(OWNER));
    let config = at(&quiesce, 3, 0, |e| matches!(e, Event::ConfigRead { bits: 16, offset: 4, .. }));
    let lent = Case::new("lent", obedient(), session(&[Call::Lend { bytes: 1 }, push(0x020, 1)]));
    let kept = |mut case: Case| {
        case.plan.card.semaphore = vec![0, 20_000];
        case
    };
    vec![
        kept(quiesce.with_fault(owner, false)),
        quiesce.with_fault(config, false),
        quiesce.with_command(0, Behaviour::status(1)),
        quiesce.with_command(1, Behaviour::status(1)),
        quiesce.with_command(17, Behaviour::status(1)),
        kept(lent.with_command(0, Behaviour::status(1))),
        lent.with_command(1, Behaviour::status(1)),
    ]
}

/// Every command that was posted was seen done. Else the Rust's outbox may get a reply that a session does not see.
fn all_seen(run: &Run) -> bool {
    let posts: usize = run.ran.steps.iter().map(|s| s.trace.posts().count()).sum();
    run.notes.as_ref().is_some_and(|notes| notes.done.len() == posts)
}

/// Some calls on an open session, few enough to be stored.
fn small(case: &Case, run: &Run) -> bool {
    let lines: usize = run.ran.steps.iter().map(|s| s.trace.folded().lines().count()).sum();
    let bytes: usize = case.calls.iter().map(|c| if let Call::Command(c) = c { c.input.len() } else { 0 }).sum();
    (6..40).contains(&run.ran.steps.len()) && lines < LINES && bytes < BYTES
}

/// Lists by seed.
fn by_seed() -> Vec<Case> {
    let fits = |case: &Case| rust_noted(case).is_some_and(|run| small(case, &run) && all_seen(&run));
    (0..).map(seeded).filter(fits).take(SEEDED).collect()
}

/// All lists: openings and closes, then the other calls.
pub fn cases() -> Vec<Case> {
    let sessions: Vec<Case> = sessions::sample::cases().iter().map(of_session).collect();
    let chosen = chosen()[..5].to_vec();
    let endless = endless();
    let endless = [1, 4, 5, 6].map(|n: usize| endless[n].clone()).to_vec();
    [sessions, chosen, endless, bus_failures(), statuses(), lendings(), ends(), by_seed()].concat()
}

/// The input of the program, and what the Rust asked and came to.
pub fn sample() -> (Vec<u8>, String) {
    let all: Vec<Record> = cases().iter().map(record).collect();
    (all.iter().flat_map(|r| r.input.clone()).collect(), all.iter().map(|r| r.output.as_str()).collect())
}
