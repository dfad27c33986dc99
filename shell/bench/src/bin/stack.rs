//! How much stack each function of include/hca.h needs: the stack below a call is filled with a byte that is not 0, and
//! looked at afterwards. Prints the most that was seen at any question of openings and closes: of several cards that do as
//! they are told, of every way in which an opening or a closing can end, and of the first card with each single bus call
//! failed in turn, taken and not.

use std::arch::asm;
use std::hint::black_box;

use compare::sessions::cases::{self, Case};
use compare::sessions::over::Over;
use compare::sessions::{sample, told};
use session::abi;
use session::ffi::{self, Called, Lent, Reader};
use session::{Call, Outcome, Question, Session, Undo, UndoList};
use world::World;

/// So much is filled, in words: 256 KB.
const WORDS: usize = 1 << 15;
const FILL: u64 = 0xd7d6_d5d4_d3d2_d1d0;
/// The frame of `needed` itself, and the zone below it that it may use.
const OWN: usize = 512;

/// The bytes of stack that `f` has used.
#[inline(never)]
fn needed(f: &mut dyn FnMut()) -> usize {
    let sp: usize;
    // SAFETY: the stack pointer is read, and nothing else.
    unsafe { asm!("mov {}, rsp", out(reg) sp, options(nomem, nostack)) };
    let top = (sp - OWN) & !7;
    let at = |k: usize| (top - 8 * (k + 1)) as *mut u64;
    // SAFETY: the thread's stack is longer than this, and nothing below this frame is in use.
    (0..WORDS).for_each(|k| unsafe { at(k).write_volatile(FILL) });
    f();
    // SAFETY: the same.
    let deepest = (0..WORDS).rev().find(|k| unsafe { at(*k).read_volatile() } != FILL);
    assert_ne!(deepest, Some(WORDS - 1), "more than was filled");
    deepest.map_or(0, |k| sp - at(k) as usize)
}

/// The most that was needed, by function.
#[derive(Default)]
struct Most(Vec<(&'static str, usize)>);

impl Most {
    fn note(&mut self, name: &'static str, bytes: usize) {
        match self.0.iter_mut().find(|(n, _)| *n == name) {
            Some((_, most)) => *most = bytes.max(*most),
            None => self.0.push((name, bytes)),
        }
    }
}

/// A call on copies of what the session lends.
fn call(s: &Session, undo: &UndoList, call: &mut dyn FnMut(Lent) -> u32) -> usize {
    let (mut state, mut inbox, mut outbox) = (s.state().to_vec(), s.inbox().to_vec(), s.outbox().to_vec());
    let mut out = [0; abi::TURN];
    let mut f = || {
        let (state, inbox, outbox, out) = (&mut state[..], &mut inbox[..], &mut outbox[..], &mut out[..]);
        black_box(call(Lent { state, inbox, outbox, undo: undo.records(), count: undo.len(), out }));
    };
    needed(&mut f)
}

fn readers(most: &mut Most, s: &Session) {
    let all = [
        ("hca_question", Reader::Question),
        ("hca_result", Reader::Result),
        ("hca_setup", Reader::Setup),
        ("hca_books", Reader::Books),
    ];
    let mut out = vec![0; abi::BOOKS];
    for (name, which) in all {
        let bytes = needed(&mut || {
            black_box(ffi::read(which, s.state(), &mut out));
        });
        most.note(name, bytes);
    }
}

/// Of a long wait only the first and the last polls are looked at.
fn is_late(q: Question, stalls: &mut u64) -> bool {
    match q {
        Question::Stall { .. } => *stalls += 1,
        Question::RegisterRead { .. } => {}
        _ => *stalls = 0,
    }
    (100..600_980).contains(stalls)
}

/// The answers of a call, from bus call `from` on; with the readers where nothing is to fail.
fn answers(most: &mut Most, s: &mut Session, bus: &mut World, undo: &mut UndoList, first: Question, from: Option<u64>) {
    let (mut list, mut stalls) = ([0; 64], 0);
    let mut q = first;
    while q != Question::Finished {
        let late = is_late(q, &mut stalls) || from.is_some_and(|n| bus.calls() < n);
        if from.is_none() {
            readers(most, s);
        }
        let answer = s.ask(&mut Over::new(bus), &mut list);
        let mut next = Ok(q);
        if late {
            next = s.answer(answer, undo);
        } else {
            most.note("hca_answer", call(s, undo, &mut |l| ffi::answer(l, answer.told())));
            most.note("Session::answer", needed(&mut || next = s.answer(answer, undo)));
        }
        q = next.expect("an answer that suits");
    }
}

/// An opening, and a close where it was good; how many bus calls there were.
fn run(most: &mut Most, case: &Case, from: Option<u64>) -> u64 {
    let mut bus = World::new(case.plan.clone());
    let mut records = [Undo::default(); 8];
    let (mut s, mut undo) = (Box::new(Session::new()), UndoList::new(&mut records));
    most.note("hca_call, open", call(&s, &undo, &mut |l| ffi::call(l, Called::OPEN)));
    let first = s.begin(Call::Open, &mut undo).expect("a fresh session");
    answers(most, &mut s, &mut bus, &mut undo, first, from);
    if s.result() == Ok(Outcome::Open) {
        case.undo.iter().for_each(|u| undo.push(told::record(u)).expect("room"));
        readers(most, &s);
        most.note("hca_call, close", call(&s, &undo, &mut |l| ffi::call(l, Called::CLOSE)));
        let first = s.begin(Call::Close, &mut undo).expect("an open session");
        answers(most, &mut s, &mut bus, &mut undo, first, from);
    }
    readers(most, &s);
    bus.calls()
}

fn measured() -> Most {
    let mut most = Most::default();
    most.note("nothing", needed(&mut || ()));
    let mut state = vec![0; abi::STATE];
    let fresh = needed(&mut || {
        black_box(ffi::fresh(&mut state));
    });
    most.note("hca_fresh", fresh);
    let good = cases::variants();
    let calls = good.iter().map(|case| run(&mut most, case, None)).collect::<Vec<_>>()[0];
    sample::cases().iter().for_each(|case| _ = run(&mut most, case, Some(0)));
    let faults = (0..calls).flat_map(|n| [(n, false), (n, true)]);
    faults.for_each(|(n, taken)| _ = run(&mut most, &good[0].with_fault(n, taken), Some(n)));
    most
}

fn main() {
    let thread = std::thread::Builder::new().stack_size(16 << 20).spawn(measured).expect("a thread");
    for (name, bytes) in thread.join().expect("no panic").0 {
        println!("| {name} | {bytes} |");
    }
}
