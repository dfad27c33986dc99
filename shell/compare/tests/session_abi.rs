//! What lies outside the Rust's domain: answers of the wrong kind (20), short slices (21), bad device addresses (18), and
//! bytes that are no session. The definition alone decides there; a call that is refused changes nothing.

use compare::image::{self, HEAD, LENDS, MAPPED, RANGES, SLOT, SLOTS, SLOT_COUNT, WORDS};
use compare::sessions::answers::{good, suits, told};
use compare::sessions::beside::{ours, rust, Ran};
use compare::sessions::cases::{self, Case};
use compare::sessions::over::Over;
use session::abi::{self, Words, UNDO_RECORDS};
use session::ffi::{self, Called, Lent, Reader, Told};
use session::{Call, Closing, Outcome, Question, Refusal, Refused, Session, Undo, UndoList, LIST_BYTES};
use world::bus::{Handle, Resource};
use world::plan::OddMap;
use world::prng::Prng;
use world::resources::{Descriptor, END, IO};
use world::trace::{Event, Trace};
use world::{World, PAGE};

mod lent;

use lent::{changing, refused, short, Copies};

const DAMAGES: u64 = if cfg!(debug_assertions) { 2_000 } else { 300_000 };
/// So many turns lie between two at which everything is tried.
const STRIDE: usize = if cfg!(debug_assertions) { 41 } else { 1 };

fn open(l: Lent) -> u32 {
    ffi::call(l, Called::OPEN)
}

fn close(l: Lent) -> u32 {
    ffi::call(l, Called::CLOSE)
}

/// Every kind that does not suit, and values that are too wide for theirs.
fn wrong_answers(q: Question) -> Vec<Told<'static>> {
    let mut all: Vec<Told> = (0..12).filter(|k| !suits(q, *k)).map(|k| told(k, 1, PAGE)).collect();
    all.extend([told(u32::MAX, 0, 0), told(abi::WORD, 1 << 16, 0), told(abi::WORD, u64::MAX, 0)]);
    all.extend([told(abi::DWORD, 1 << 32, 0), told(abi::DWORD, u64::MAX, 0)]);
    all
}

/// Everything that is refused while a question is open.
fn try_all(copies: &Copies, q: Question) {
    for kind in 0..12 {
        refused(copies, abi::WRONG, &format!("call {kind}"), |l| ffi::call(l, Called::of(kind, 0)));
    }
    for t in wrong_answers(q) {
        refused(copies, abi::WRONG, &format!("{q:?} {t:?}"), |l| ffi::answer(l, t));
    }
    let Some(t) = good(q) else {
        return;
    };
    for (what, c) in short(copies) {
        refused(&c, abi::SHORT, &format!("{q:?} {what}"), |l| ffi::answer(l, t));
        refused(&c, abi::WRONG, &format!("{q:?} {what}, unknown kind"), |l| ffi::answer(l, told(0, 0, 0)));
        if !what.ends_with("state") {
            let wrong = if t.kind == abi::QWORD { abi::WORD } else { abi::QWORD };
            refused(&c, abi::WRONG, &format!("{q:?} {what}, wrong kind"), |l| ffi::answer(l, told(wrong, 1, 0)));
            refused(&c, abi::WRONG, &format!("{q:?} {what}, open"), open);
        }
    }
    try_readers(copies, q);
}

/// The readers: what they need, and that they leave the rest of a longer slice.
fn try_readers(copies: &Copies, q: Question) {
    let all = [
        (Reader::Question, abi::QUESTION),
        (Reader::Result, abi::RESULT),
        (Reader::Books, abi::BOOKS),
        (Reader::Setup, abi::SETUP),
    ];
    for (which, bytes) in all {
        let mut out = vec![0x5a; bytes + 8];
        let taken = which != Reader::Setup;
        let number = ffi::read(which, &copies.state, &mut out);
        assert_eq!(number, if taken { 0 } else { abi::WRONG }, "{which:?} {q:?}");
        assert_eq!(out[bytes..], [0x5a; 8], "{which:?}");
        let mut cut = vec![0x5a; bytes - 1];
        let number = ffi::read(which, &copies.state, &mut cut);
        assert_eq!(number, if taken { abi::SHORT } else { abi::WRONG }, "{which:?} {q:?}");
        assert!(cut.iter().all(|b| *b == 0x5a), "{which:?}");
        let number = ffi::read(which, &copies.state[..abi::STATE - 1], &mut out);
        assert_eq!(number, abi::SHORT, "{which:?}");
    }
    let mut out = [0; abi::QUESTION];
    assert_eq!(ffi::read(Reader::Question, &copies.state, &mut out), 0);
    assert_eq!(Question::of(&Words(&out)), Some(q), "the open question");
}

/// Runs a call, with everything tried at its questions.
fn through(session: &mut Session, bus: &mut World, undo: &mut UndoList, first: Question, at: &mut usize) {
    let mut over = Over::new(bus);
    let mut list = [0; 64];
    let mut q = first;
    while q != Question::Finished {
        *at += 1;
        if at.is_multiple_of(STRIDE) {
            try_all(&Copies::of(session), q);
        }
        let answer = session.ask(&mut over, &mut list);
        q = session.answer(answer, undo).expect("an answer that suits");
    }
}

/// Calls on an idle session that must be refused, and an answer too.
fn idle(session: &Session, calls: &[fn(Lent) -> u32]) {
    let copies = Copies::of(session);
    for call in calls {
        refused(&copies, abi::WRONG, "a call at the wrong time", call);
        for (what, c) in short(&copies) {
            let number = if what.ends_with("state") { abi::SHORT } else { abi::WRONG };
            refused(&c, number, what, call);
        }
    }
    for kind in 0..10 {
        refused(&copies, abi::WRONG, "answer", |l| ffi::answer(l, told(kind, 1, 1)));
    }
}

/// Short slices at a call that would be taken.
fn shortened(session: &Session, what: &str, call: fn(Lent) -> u32) {
    for (short, c) in short(&Copies::of(session)) {
        refused(&c, abi::SHORT, &format!("{what} {short}"), call);
    }
}

#[test]
fn refused_calls_change_nothing_at_any_question() {
    for case in [&cases::variants()[2], &cases::variants()[3]] {
        let mut bus = World::new(case.plan.clone());
        let mut records = [Undo::default(); UNDO_RECORDS];
        let (mut session, mut undo) =
            (Session::with_mailboxes([0xa5; 4096], [0xa5; 4096]), UndoList::new(&mut records));
        let mut at = 0;
        idle(&session, &[close]);
        shortened(&session, "open", open);
        let first = session.begin(Call::Open, &mut undo).expect("a fresh session");
        through(&mut session, &mut bus, &mut undo, first, &mut at);
        assert_eq!(session.result(), Ok(Outcome::Open));
        idle(&session, &[open]);
        shortened(&session, "close", close);
        undo.push(Undo { op: 0x20, ..Undo::default() }).expect("room");
        let first = session.begin(Call::Close, &mut undo).expect("an open session");
        through(&mut session, &mut bus, &mut undo, first, &mut at);
        assert_eq!(session.result(), Ok(Outcome::Closed(Closing::Clean)));
        idle(&session, &[open, close]);
        assert_eq!(session.setup(), Err(Refused::Wrong));
        assert!(at > 700, "{at} questions");
    }
}

#[test]
fn a_fresh_session_is_made_in_room_enough() {
    for bytes in [0, 1, abi::STATE - 1] {
        let mut state = vec![0x5a; bytes];
        assert_eq!(ffi::fresh(&mut state), abi::SHORT);
        assert!(state.iter().all(|b| *b == 0x5a));
    }
    let mut state = vec![0x5a; abi::STATE + 8];
    assert_eq!(ffi::fresh(&mut state), 0);
    assert_eq!(state[..abi::STATE], Session::new().state()[..]);
    assert_eq!(state[abi::STATE..], [0x5a; 8]);
}

/// The trace's questions; of the odd map no answer.
fn questions(trace: &Trace) -> Vec<String> {
    let shown = |e: Event| match e {
        Event::Map { handle, bytes, .. } => format!("map {handle} {bytes:x}"),
        e => e.to_string(),
    };
    trace.events().map(shown).collect()
}

/// A map whose address is refused leads to what a map of another size leads to, which the Rust knows.
#[test]
fn a_bad_device_address_is_18_and_goes_back() {
    let case = &cases::variants()[0];
    let maps = questions(&ours(case).ran.opening).iter().filter(|q| q.starts_with("map")).count() as u64;
    assert_eq!(maps, 18);
    for n in 0..maps {
        let odd = |address: Option<u64>, bytes: Option<u64>| {
            let mut odd = case.clone();
            odd.plan.host.odd_maps = vec![(n, OddMap { address, bytes })];
            odd
        };
        let five = rust(&odd(None, Some(1))).expect("inside the domain").ran;
        assert_eq!(five.opened.as_ref().expect_err("refused").number, 5);
        for address in [1, 0x1001, 0xfff, u64::MAX, u64::MAX - 4094, 1 << 11] {
            is_18(&odd(Some(address), None), &five);
            is_18(&odd(Some(address), Some(0)), &five);
        }
        // Its end lies above 2^64, where it has more than one page.
        let pages = asked_pages(&five);
        let last = 0u64.wrapping_sub(PAGE);
        let run = ours(&odd(Some(last), None)).ran;
        if pages > 1 {
            is_18(&odd(Some(last), None), &five);
        } else {
            assert!(run.opened.is_ok(), "one page that ends at 2^64");
        }
    }
}

/// The pages of the last allocation before the first unmap.
fn asked_pages(ran: &Ran) -> u64 {
    let before = ran.opening.events().take_while(|e| !matches!(e, Event::Unmap { .. }));
    let pages = before.filter_map(|e| if let Event::Allocate { pages, .. } = e { Some(pages) } else { None });
    pages.last().expect("an allocation")
}

fn is_18(case: &Case, five: &Ran) {
    let run = ours(case).ran;
    let (refusal, expected) = (run.opened.expect_err("refused"), five.opened.as_ref().expect_err("refused"));
    assert_eq!((refusal.number, refusal.closing), (18, expected.closing));
    assert_eq!(questions(&run.opening), questions(&five.opening));
    assert_eq!((run.inbox, run.outbox), (five.inbox.clone(), five.outbox.clone()));
    assert!(run.holdings.in_use.is_empty() && run.misuse.is_empty());
}

/// Auxiliary pages whose bytes pass 2^64: nothing is asked for them, and the closing takes back what is there.
#[test]
fn too_many_auxiliary_pages_are_18() {
    for pages in [1 << 52, (1 << 52) + 1, u64::MAX] {
        let mut case = cases::variants()[0].clone();
        case.plan.card.replies.aux_pages = pages;
        let run = ours(&case).ran;
        let refusal = run.opened.expect_err("refused");
        assert_eq!((refusal.number, refusal.closing), (18, Some(world::results::Closing::Clean)));
        assert_eq!(run.opening.posts().last().map(|p| p.op), Some(world::registers::UNMAP_FA));
        assert!(run.holdings.in_use.is_empty() && run.misuse.is_empty());
    }
    let mut case = cases::variants()[0].clone();
    case.plan.card.replies.aux_pages = (1 << 52) - 1;
    let run = ours(&case).ran;
    assert_eq!(run.opened.expect_err("refused").number, 5);
    assert!(questions(&run.opening).contains(&format!("alloc {} -> fail", (1u64 << 52) - 1)));
}

/// A record that may have any opcode: the caller has written it to his list himself.
fn pushed_anyhow(undo: &mut UndoList, op: u16) {
    undo.push(Undo { op: 0x20, ..Undo::default() }).expect("room");
    undo.records_mut().last_mut().expect("a record").op = op;
}

/// Records that stand on the list when an opening fails are sent by its closing; one that is reserved counts as failed.
#[test]
fn records_at_a_failed_opening() {
    for (op, sent, closing) in [(0x20, 2, Closing::Clean), (0xfff, 0, Closing::Reset), (0x1000, 0, Closing::Reset)] {
        let mut case = cases::variants()[0].clone();
        case.plan.card.replies.cap[0x37] = 3;
        let mut bus = world::traced::Traced::new(World::new(case.plan));
        let mut records = [Undo::default(); UNDO_RECORDS];
        let (mut session, mut undo) = (Session::new(), UndoList::new(&mut records));
        undo.push(Undo { op: 0x21, ..Undo::default() }).expect("room");
        pushed_anyhow(&mut undo, op);
        let outcome = session.open(&mut Over::new(&mut bus), &mut undo).expect("a fresh session");
        assert_eq!(outcome, Outcome::Failed(Refusal::Ports(3), closing));
        assert_eq!(undo.len(), 2 - sent);
        let trace = bus.take();
        let ops: Vec<u16> = trace.posts().map(|p| p.op).filter(|o| matches!(o, 0x20 | 0x21)).collect();
        assert_eq!(ops, [0x20, 0x21][..sent]);
        assert!(bus.bus.misuse().is_empty() && bus.bus.in_use().is_empty());
    }
}

/// A list of 256 records is sent whole; a 257th has no room.
#[test]
fn a_full_undo_list() {
    let mut bus = World::new(cases::variants()[0].plan.clone());
    let mut records = [Undo::default(); UNDO_RECORDS];
    let (mut session, mut undo) = (Session::new(), UndoList::new(&mut records));
    assert_eq!(session.open(&mut Over::new(&mut bus), &mut undo), Ok(Outcome::Open));
    for i in 0..256 {
        undo.push(Undo { op: 0x20, op_mod: 0, in_mod: i, in_param: 0 }).expect("room");
    }
    assert_eq!(undo.push(Undo::default()), Err(Refused::Full));
    let mut bus = world::traced::Traced::new(bus);
    assert_eq!(session.close(&mut Over::new(&mut bus), &mut undo), Ok(Outcome::Closed(Closing::Clean)));
    let sent: Vec<u32> = bus.trace.posts().filter(|p| p.op == 0x20).map(|p| p.in_mod).collect();
    assert_eq!(sent, (0..256).rev().collect::<Vec<u32>>());
    assert!(undo.is_empty());
}

/// The task is a command before and after the answer, and the phase of the later one is not its first.
fn goes_on(before: &[u8], after: &[u8]) -> bool {
    let is_command = |state: &[u8]| Words(state).at(0) == 8;
    is_command(before) && is_command(after) && Words(after).at(1) != 0
}

/// An answer that does not end its command changes words 1, 2, 8 and 9 of the session at most, and looks at none behind
/// word 9: damage of the head there is found by the answer that ends it, and by any to another task.
#[test]
fn a_command_that_goes_on_touches_its_own_words_alone() {
    let mut case = cases::variants()[0].clone();
    case.plan.card.commands = vec![(world::plan::Which::Number(3), world::plan::Behaviour::after(1_005))];
    let mut bus = World::new(case.plan);
    let mut records = [Undo::default(); UNDO_RECORDS];
    let (mut session, mut undo) = (Session::new(), UndoList::new(&mut records));
    let mut q = session.begin(Call::Open, &mut undo).expect("a fresh session");
    let (mut list, mut went_on) = ([0; 64], 0);
    while q != Question::Finished {
        let before = Copies::of(&session);
        let answer = session.ask(&mut Over::new(&mut bus), &mut list);
        let mut damaged = before.clone();
        let high = RANGES * 8 + 7;
        damaged.state[high] = 1;
        let next = session.answer(answer, &mut undo).expect("an answer that suits");
        if goes_on(&before.state, session.state()) {
            went_on += 1;
            let changed = |k: &usize| before.state[*k] != session.state()[*k];
            assert!((0..abi::STATE).filter(changed).all(|k| [1, 2, 8, 9].contains(&(k / 8))), "{q:?}");
            assert_eq!(damaged.call(|l| ffi::answer(l, answer.told())), 0, "{q:?}");
            damaged.state[high] = 0;
            assert_eq!(damaged.state, session.state());
            assert_eq!(Question::of(&Words(&damaged.out)), Some(next));
        } else {
            refused(&damaged, abi::WRONG, "damage", |l| ffi::answer(l, answer.told()));
        }
        q = next;
    }
    // Of a command 13 answers besides its polls go on, and one ends it.
    assert_eq!(went_on, 24 * 13 + 2 * 1_005);
}

/// Runs a call; `look` sees the session and the world at each of its questions, before it is answered, and behind the last.
fn looking(
    session: &mut Session,
    call: Call,
    bus: &mut World,
    undo: &mut UndoList,
    look: &mut dyn FnMut(&Session, &World, Question),
) {
    let mut list = [0; 64];
    let mut q = session.begin(call, undo).expect("a call at its time");
    while q != Question::Finished {
        look(session, bus, q);
        let answer = session.ask(&mut Over::new(bus), &mut list);
        q = session.answer(answer, undo).expect("an answer that suits");
    }
    look(session, bus, q);
}

/// The books name what was handed over and not given back, and mark what is not mapped.
fn books_are_exact(s: &Session, bus: &World, q: Question) {
    let books = s.books().expect("a session");
    let sorted = |fits: &dyn Fn(&session::Buffer) -> bool| {
        let mut all: Vec<u64> = books.buffers().filter(|b| fits(b)).map(|b| b.handle).collect();
        all.sort_unstable();
        all
    };
    let holdings = bus.holdings();
    let handles = |all: &[Handle]| all.iter().map(|h| h.0).collect::<Vec<u64>>();
    assert_eq!(sorted(&|_| true), handles(&holdings.in_use), "{q:?}");
    assert_eq!(sorted(&|b| b.mapped()), handles(&holdings.mapped), "{q:?}");
}

/// At every question of openings, lendings and closings, good ones and such that fail, the books are exact.
#[test]
fn books_at_every_question() {
    let case = &cases::variants()[2];
    let mut bus = World::new(case.plan.clone());
    let first = run_exactly(&mut bus);
    assert_eq!(first, (true, 18 + 3));
    let calls = bus.calls();
    for n in (0..calls).step_by(STRIDE) {
        for taken in [false, true] {
            run_exactly(&mut World::new(case.with_fault(n, taken).plan));
        }
    }
}

/// An opening, three lendings and a close; whether it was opened, and the most buffers that were held.
fn run_exactly(bus: &mut World) -> (bool, usize) {
    let (mut session, mut undo) = (Session::new(), UndoList::new(&mut []));
    let mut most = 0;
    let mut look = |s: &Session, bus: &World, q: Question| {
        books_are_exact(s, bus, q);
        most = bus.in_use().len().max(most);
    };
    looking(&mut session, Call::Open, bus, &mut undo, &mut look);
    let opened = session.result() == Ok(Outcome::Open);
    if opened {
        for bytes in [1, 8192, 4096] {
            looking(&mut session, Call::Lend { bytes }, bus, &mut undo, &mut look);
        }
        looking(&mut session, Call::Close, bus, &mut undo, &mut look);
    }
    (opened, most)
}

/// Where no answer looks, a call does: damage behind the head is taken by the answers of a task that does not read it, and is
/// 20 at the next call and to every reader.
#[test]
fn damage_behind_the_head_is_found_by_the_next_call() {
    let mut bus = World::new(cases::variants()[0].plan.clone());
    let (mut session, mut undo) = (Session::new(), UndoList::new(&mut []));
    assert_eq!(session.open(&mut Over::new(&mut bus), &mut undo), Ok(Outcome::Open));
    session.begin(Call::Lend { bytes: 1 }, &mut undo).expect("an open session");
    let running = Copies::of(&session);
    session.finish(&mut Over::new(&mut bus), &mut undo).expect("a lent buffer");
    let rest = Copies::of(&session);
    for slot in 1..SLOT_COUNT {
        let at = SLOTS + slot * SLOT + MAPPED;
        for word in [2, 1 << 8, 1 << 63, u64::MAX] {
            let mut damaged = rest.clone();
            image::put(&mut damaged.state, at, word);
            refused(&damaged, abi::WRONG, "close", close);
            let mut out = vec![0; abi::BOOKS];
            for which in [Reader::Question, Reader::Result, Reader::Setup, Reader::Books] {
                assert_eq!(ffi::read(which, &damaged.state, &mut out), abi::WRONG, "{which:?}");
            }
            let mut damaged = running.clone();
            image::put(&mut damaged.state, at, word);
            for t in [told(abi::HANDLE, 7, 0), told(abi::MAPPED, PAGE, PAGE)] {
                assert_eq!(damaged.call(|l| ffi::answer(l, t)), 0, "slot {slot}");
            }
            refused(&damaged, abi::WRONG, "close", close);
        }
    }
}

/// Counts above their bounds are 20 to a call and to an answer that does not go on with a command.
#[test]
fn counts_above_their_bounds_are_no_session() {
    let mut bus = World::new(cases::variants()[0].plan.clone());
    let (mut session, mut undo) = (Session::new(), UndoList::new(&mut []));
    assert_eq!(session.open(&mut Over::new(&mut bus), &mut undo), Ok(Outcome::Open));
    let rest = Copies::of(&session);
    session.begin(Call::Lend { bytes: 1 }, &mut undo).expect("an open session");
    let running = Copies::of(&session);
    for (at, most) in [(RANGES, 14), (LENDS, 64)] {
        for (word, number) in [(most, 0), (most + 1, abi::WRONG), (1 << 32, abi::WRONG), (u64::MAX, abi::WRONG)] {
            let with = |copies: &Copies, call: &dyn Fn(Lent) -> u32| {
                let mut damaged = copies.clone();
                image::put(&mut damaged.state, at, word);
                damaged.call(call)
            };
            assert_eq!(with(&rest, &close), number, "word {at} is {word}");
            assert_eq!(with(&running, &|l| ffi::answer(l, told(abi::HANDLE, 7, 0))), number, "word {at} is {word}");
        }
    }
}

/// An opening begins with nothing behind the head: what stood there in a session that was never opened is cleared.
#[test]
fn an_opening_clears_what_stands_behind_the_head() {
    let begun = |copies: &Copies| {
        let mut after = copies.clone();
        assert_eq!(after.call(open), 0);
        after.state
    };
    let fresh = Copies::of(&Session::new());
    let mut other = fresh.clone();
    for slot in 0..SLOT_COUNT {
        (0..SLOT).for_each(|k| image::put(&mut other.state, SLOTS + slot * SLOT + k, 1));
    }
    assert_eq!(begun(&other), begun(&fresh));
}

/// A handle is any number, 0 as well.
#[test]
fn handles_are_any_numbers() {
    let run = |mask: u64| {
        let mut bus = world::traced::Traced::new(World::new(cases::variants()[0].plan.clone()));
        let mut records = [Undo::default(); UNDO_RECORDS];
        let (mut session, mut undo) = (Session::new(), UndoList::new(&mut records));
        let mut over = Over::masked(&mut bus, mask);
        assert_eq!(session.open(&mut over, &mut undo), Ok(Outcome::Open));
        assert_eq!(session.books().expect("a session").inbox.map(|b| b.handle), Some(1 ^ mask));
        assert_eq!(session.close(&mut over, &mut undo), Ok(Outcome::Closed(Closing::Clean)));
        bus.take().full()
    };
    let plain = run(0);
    for mask in [1, 2, 0xff, 1 << 63, u64::MAX] {
        assert_eq!(run(mask), plain, "{mask:x}");
    }
}

/// The opcodes that a close sends when the list is changed at its first stop behind the command `op`.
fn closed_with(change: impl Fn(&mut UndoList), op: u16) -> (Vec<u16>, Outcome, usize) {
    let mut bus = world::traced::Traced::new(World::new(cases::variants()[0].plan.clone()));
    let mut records = [Undo::default(); UNDO_RECORDS];
    let (mut session, mut undo) = (Session::new(), UndoList::new(&mut records));
    assert_eq!(session.open(&mut Over::new(&mut bus), &mut undo), Ok(Outcome::Open));
    bus.take();
    [0x21, 0x22].iter().for_each(|op| undo.push(Undo { op: *op, ..Undo::default() }).expect("room"));
    changing(&mut session, Call::Close, &mut bus, &mut undo, op, &change);
    let sent = bus.take().posts().map(|p| p.op).take(5).collect();
    (sent, session.result().expect("a session"), undo.len())
}

/// The newest record of the list as it is lent at each turn is sent; one that has become reserved counts as failed.
#[test]
fn a_list_that_changes_while_it_is_sent() {
    const NEXT: [u16; 3] = [0x008, 0xff9, 0xff9];
    let more = |op: u16| move |undo: &mut UndoList| pushed_anyhow(undo, op);
    let (sent, outcome, left) = closed_with(more(0x23), 0x22);
    assert_eq!(sent[..4], [0x22, 0x23, 0x21, NEXT[0]]);
    assert_eq!((outcome, left), (Outcome::Closed(Closing::Clean), 0));
    let (sent, outcome, left) = closed_with(more(0xff6), 0x22);
    assert_eq!((sent, outcome, left), (vec![0x22], Outcome::Closed(Closing::Reset), 2));
    let (sent, outcome, left) = closed_with(|undo| undo.truncate(0), 0x22);
    assert_eq!((sent[..4].to_vec(), left), ([&[0x22], &NEXT[..]].concat(), 0));
    assert_eq!(outcome, Outcome::Closed(Closing::Clean));
    // Behind the last record the list is not looked at again.
    let (sent, outcome, left) = closed_with(more(0x23), 0x008);
    assert_eq!((sent[..3].to_vec(), left), (vec![0x22, 0x21, 0x008], 1));
    assert_eq!(outcome, Outcome::Closed(Closing::Clean));
}

/// The session's bytes at every so-manieth question of an opening and a close.
fn snapshots() -> Vec<(Copies, Question)> {
    let mut all = Vec::new();
    let case = &cases::variants()[5];
    let mut bus = World::new(case.plan.clone());
    let mut records = [Undo::default(); UNDO_RECORDS];
    let (mut session, mut undo) = (Session::new(), UndoList::new(&mut records));
    let mut list = [0; 64];
    let mut q = session.begin(Call::Open, &mut undo).expect("a fresh session");
    for closing in [false, true] {
        if closing {
            q = session.begin(Call::Close, &mut undo).expect("an open session");
        }
        while q != Question::Finished {
            all.push((Copies::of(&session), q));
            let answer = session.ask(&mut Over::new(&mut bus), &mut list);
            q = session.answer(answer, &mut undo).expect("an answer that suits");
        }
        all.push((Copies::of(&session), q));
    }
    all
}

/// One to three words or bytes of the state are changed.
fn damage(r: &mut Prng, state: &mut [u8]) {
    for _ in 0..=r.below(3) {
        let hot = r.one_in(3);
        let at = r.below(if hot { HEAD } else { WORDS } as u64) as usize * 8;
        let any = r.next_u64();
        let small = r.below(24);
        let word = r.pick(&[0, 1, 2, 3, small, small, 14, 15, 64, 65, 256, 0xffff_ffff, 1 << 32, u64::MAX, any]);
        match r.below(4) {
            0 => state[at + r.below(8) as usize] ^= 1 << r.below(8),
            1 => image::damage_books(r, state),
            _ => image::put(state, at / 8, word),
        }
    }
}

fn any_answer(r: &mut Prng, q: Question) -> Told<'static> {
    let value = r.next_u64();
    let value = r.pick(&[0, 1, PAGE, 0x8000, value, value & 0xffff, value & 0xffff_ffff, u64::MAX]);
    match good(q) {
        Some(t) if !r.one_in(4) => Told { a: value & 0xffff, ..t },
        _ => told(r.below(10) as u32, value, r.pick(&[0, PAGE, value])),
    }
}

/// Damaged bytes are refused, or make another session; no call faults, and one that is refused changes nothing.
#[test]
fn damaged_bytes_never_fault() {
    let all = snapshots();
    let mut r = Prng::new(5);
    let mut given = [0u64; 3];
    for _ in 0..DAMAGES {
        let (copies, q) = &all[r.below(all.len() as u64) as usize];
        let mut damaged = copies.clone();
        damage(&mut r, &mut damaged.state);
        damaged.count = r.pick(&[0, 0, 1, 256]);
        for _ in 0..1 + r.below(4) {
            let before = damaged.clone();
            let t = any_answer(&mut r, *q);
            let number = match r.below(8) {
                0 => damaged.call(open),
                1 => damaged.call(close),
                _ => damaged.call(|l| ffi::answer(l, t)),
            };
            match number {
                0 => given[0] += 1,
                abi::WRONG => given[1] += 1,
                abi::SHORT => given[2] += 1,
                n => panic!("refused with {n}"),
            }
            assert!(number == 0 || damaged == before, "a refused call changed something");
        }
        let mut out = vec![0; abi::BOOKS];
        for which in [Reader::Question, Reader::Result, Reader::Setup, Reader::Books] {
            assert!([0, abi::WRONG].contains(&ffi::read(which, &damaged.state, &mut out)));
        }
    }
    assert!(given[0] > 0 && given[1] > 0, "{given:?}");
    println!("taken, 20, 21: {given:?}");
}

/// Any bytes at all.
#[test]
fn random_bytes_are_no_session() {
    let mut r = Prng::new(6);
    for _ in 0..DAMAGES / 100 {
        let state = r.bytes(abi::STATE);
        let copies = Copies { state, ..Copies::of(&Session::new()) };
        refused(&copies, abi::WRONG, "open", open);
        refused(&copies, abi::WRONG, "close", close);
        refused(&copies, abi::WRONG, "answer", |l| ffi::answer(l, told(abi::DONE, 0, 0)));
        let mut out = vec![0; abi::BOOKS];
        assert_eq!(ffi::read(Reader::Books, &copies.state, &mut out), abi::WRONG);
        for (what, c) in short(&copies).into_iter().filter(|(what, _)| !what.ends_with("state")) {
            refused(&c, abi::WRONG, what, open);
        }
    }
}

/// Words that are no question, as no call writes them.
#[test]
fn words_that_are_no_question() {
    let of = |words: [u64; 4]| Question::of(&Words(&words.map(u64::to_le_bytes).concat()));
    assert_eq!(of([14, 0, 0, 0]), Some(Question::Fence));
    assert_eq!(of([5, 6, 7, 0]), Some(Question::RegisterRead { bar: 6, offset: 7 }));
    let none = [[15, 0, 0, 0], [u64::MAX; 4], [1, 1 << 16, 0, 0], [3, 0, 1 << 16, 0], [4, 0, 1 << 32, 0]];
    assert!(none.into_iter().all(|w| of(w).is_none()));
    let none = [[5, 256, 0, 0], [6, 0, 0, 1 << 32], [7, 3, 0, 0], [8, 256, 0, 0], [9, 1 << 32, 0, 0]];
    assert!(none.into_iter().all(|w| of(w).is_none()));
}

/// A list that is longer than the wrapper's room is cut: 27 unless its first memory descriptor is whole.
#[test]
fn lists_that_are_cut() {
    let memory = Descriptor::memory(0xe000_0000, 8 << 20);
    for more in [0, 1, LIST_BYTES - 92, LIST_BYTES - 91, LIST_BYTES, 65_492] {
        let ahead = Descriptor { kind: IO, more, ..memory };
        let list = [ahead.bytes(), memory.bytes(), memory.bytes(), END.into()].concat();
        let mut case = cases::variants()[7].clone();
        case.plan.resources.odd = (0..6).map(|i| (i, Resource::List(list.clone()))).collect();
        let opened = ours(&case).ran.opened;
        if 46 + more + 46 <= LIST_BYTES {
            let opened = opened.expect("a good opening");
            assert_eq!((opened.uar_bar, opened.uar_size), (2, Some(8 << 20)), "{more} bytes more");
        } else {
            assert_eq!(opened.expect_err("a bad list").number, 27, "{more} bytes more");
        }
    }
}
