//! The loader's bus over an instance of `EFI_PCI_IO_PROTOCOL` beside the plain simulated bus: the same bus calls, the same
//! results, and nothing held at the end.

mod instance;

use instance::Instance;
use loader::{visit, Card, PciIoBus};
use session::abi::UNDO_RECORDS;
use session::{
    Bus as _, Call, Closing, Command, How, Outcome, Refusal, Refused, Session, Setup, Undo, UndoList, LIST_BYTES,
};
use station::over::Over;
use uefi::boot;
use uefi::Status;
use world::bus::Resource;
use world::plan::{Fault, OddMap, Plan};
use world::resources::{Descriptor, END, IO};
use world::traced::Traced;
use world::{Holdings, World};

/// `EFI_WARN_STALE_DATA`: no error, and no success.
const WARNING: Status = Status(5);
const ERROR: Status = Status::DEVICE_ERROR;

/// What a loader does, one after the other.
#[derive(Clone, Copy)]
enum Act {
    Call(Call<'static>),
    Push(Undo),
}

fn command(op: u16, in_mod: u32) -> Command {
    Command { op, op_mod: 0, in_mod }
}

/// Every kind of call but a quiesce; on a session that was not opened all but the first are refused.
fn acts() -> Vec<Act> {
    let undo = |op: u16| Undo { op, op_mod: 1, in_mod: 7, in_param: 0x1234 };
    vec![
        Act::Call(Call::Open),
        Act::Call(Call::Lend { bytes: 5000 }),
        Act::Push(undo(0x014)),
        Act::Push(undo(0x017)),
        Act::Call(Call::Imm { command: command(0x009, 1), in_param: 0x55 }),
        Act::Call(Call::WithIn { command: command(0x00c, 2), input: &[1, 2, 3] }),
        Act::Call(Call::WithOut { command: command(0x003, 0) }),
        Act::Call(Call::InImm { command: command(0x027, 0), input: &[0xff; 16] }),
        Act::Call(Call::InOut { command: command(0x024, 1), input: &[7; 4096] }),
        Act::Call(Call::UndoTo { mark: 1 }),
        Act::Call(Call::Lend { bytes: 0 }),
        Act::Call(Call::Imm { command: command(0xfff, 0), in_param: 0 }),
        Act::Call(Call::Close),
    ]
}

/// The calls around a quiesce.
fn quiescing() -> Vec<Act> {
    vec![
        Act::Call(Call::Open),
        Act::Push(Undo { op: 0x014, op_mod: 0, in_mod: 7, in_param: 0 }),
        Act::Call(Call::Lend { bytes: 5000 }),
        Act::Call(Call::Quiesce),
        Act::Call(Call::WithOut { command: command(0x003, 0) }),
        Act::Call(Call::Close),
    ]
}

/// What can be compared of a run.
#[derive(PartialEq, Debug)]
struct Run {
    outcomes: Vec<Result<Outcome, Refused>>,
    /// What was found out, and the buffers that are held, behind the opening.
    setup: Option<Setup>,
    buffers: Vec<(u64, u64)>,
    boxes: Vec<u8>,
    records: usize,
    trace: String,
    holdings: Holdings,
    misuse: Vec<String>,
}

/// A handle is a loader's own number.
fn without_handle(outcome: Result<Outcome, Refused>) -> Result<Outcome, Refused> {
    outcome.map(|o| match o {
        Outcome::Lent(b) => Outcome::Lent(session::Buffer { handle: 0, ..b }),
        o => o,
    })
}

fn buffers(books: &session::Books) -> Vec<(u64, u64)> {
    books.buffers().map(|b| (b.address, b.pages)).collect()
}

fn boxes(session: &Session) -> Vec<u8> {
    [&session.inbox()[..], session.outbox()].concat()
}

/// By the wrapper over the world's own bus.
fn plain(plan: Plan, acts: &[Act]) -> Run {
    let mut bus = Traced::new(World::new(plan));
    let mut records = [Undo::default(); UNDO_RECORDS];
    let (mut session, mut undo) = (Box::<Session>::default(), UndoList::new(&mut records));
    let (mut outcomes, mut setup, mut held) = (Vec::new(), None, Vec::new());
    for act in acts {
        let outcome = match *act {
            Act::Call(call) => session.call(call, &mut Over::new(&mut bus), &mut undo),
            Act::Push(record) => undo.push(record).map(|()| Outcome::Open),
        };
        outcomes.push(without_handle(outcome));
        if outcomes.len() == 1 {
            setup = session.setup().ok();
            held = session.books().map(|b| buffers(&b)).unwrap_or_default();
        }
    }
    let (boxes, records) = (boxes(&session), undo.len());
    let (trace, world) = (bus.take().folded(), bus.bus);
    let (holdings, misuse) = (world.holdings(), world.misuse().to_vec());
    Run { outcomes, setup, buffers: held, boxes, records, trace, holdings, misuse }
}

/// By the loader over the protocol, where a call that failed says `bad`.
fn over_pci_io(plan: Plan, bad: Status, acts: &[Act]) -> Run {
    let mut instance = Instance::new(plan, bad);
    boot::hook(Some(instance.machine.clone()));
    let mut records = [Undo::default(); UNDO_RECORDS];
    // SAFETY: the instance lives to the end of this function, and only the card uses it.
    let mut card = Box::new(unsafe { Card::new(instance.pci(), &mut records) });
    let (mut outcomes, mut setup, mut held) = (Vec::new(), None, Vec::new());
    for act in acts {
        let outcome = match *act {
            Act::Call(call) => card.call(call),
            Act::Push(record) => card.push_undo(record).map(|()| Outcome::Open),
        };
        outcomes.push(without_handle(outcome));
        if outcomes.len() == 1 {
            setup = card.setup().ok();
            held = card.books().map(|b| buffers(&b)).unwrap_or_default();
        }
    }
    boot::hook(None);
    let m = instance.machine.clone();
    let (boxes, records) = (boxes(card.session()), card.undo().len());
    assert_eq!((m.lists_out(), m.level()), (0, boot::Tpl::APPLICATION));
    let mut bus = m.bus.borrow_mut();
    let trace = bus.take();
    // Each question that is no fence, and what begins and ends a call.
    let questions = trace.events().filter(|e| e.is_call()).count() + trace.stalls().0 as usize;
    assert!(m.raised.get() as usize > questions, "{} of {questions}", m.raised.get());
    let (holdings, mut misuse) = (bus.bus.holdings(), bus.bus.misuse().to_vec());
    misuse.extend(m.misuse.borrow().iter().cloned());
    Run { outcomes, setup, buffers: held, boxes, records, trace: trace.folded(), holdings, misuse }
}

/// Both, which must be the same.
fn beside(plan: &Plan, bad: Status) -> Run {
    both(plan, bad, &acts())
}

fn both(plan: &Plan, bad: Status, acts: &[Act]) -> Run {
    let (a, b) = (plain(plan.clone(), acts), over_pci_io(plan.clone(), bad, acts));
    assert_eq!(a.trace, b.trace, "the bus calls of the plain bus, and of the loader's");
    assert_eq!(a, b);
    b
}

#[test]
fn opened_used_and_closed() {
    let run = beside(&Plan::obedient(), ERROR);
    let (first, last) = (run.outcomes[0], run.outcomes[12]);
    assert_eq!((first, last), (Ok(Outcome::Open), Ok(Outcome::Closed(Closing::Clean))));
    assert!(matches!(run.outcomes[1], Ok(Outcome::Lent(b)) if b.pages == 2), "{:?}", run.outcomes);
    assert!(run.outcomes[4..9].iter().all(|o| matches!(o, Ok(Outcome::Done { .. }))), "{:?}", run.outcomes);
    assert_eq!((run.outcomes[9], run.outcomes[11]), (Ok(Outcome::Open), Err(Refused::Reserved)));
    assert_eq!((run.buffers.len(), run.records), (18, 0));
    assert!(run.holdings.in_use.is_empty() && run.holdings.mapped.is_empty() && !run.holdings.pending);
    assert_eq!(run.misuse, [""; 0]);
}

/// What is freed behind a quiesce is freed after a reset.
#[test]
fn quiesced_and_closed() {
    let run = both(&Plan::obedient(), ERROR, &quiescing());
    assert_eq!((run.outcomes[3], run.outcomes[5]), (Ok(Outcome::Open), Ok(Outcome::Closed(Closing::Reset))));
    assert!(run.holdings.in_use.is_empty() && run.records == 0 && run.misuse.is_empty());
    for seed in 0..60 {
        both(&Plan::seeded(seed).calm(), WARNING, &quiescing());
    }
}

#[test]
fn a_visit() {
    let mut instance = Instance::new(Plan::obedient(), ERROR);
    boot::hook(Some(instance.machine.clone()));
    let mut records = [Undo::default(); 4];
    // SAFETY: the instance lives to the end of this function, and only the card uses it.
    let mut card = Box::new(unsafe { Card::new(instance.pci(), &mut records) });
    let seen = visit(&mut card).expect("no call is refused");
    boot::hook(None);
    let used = seen.used.as_ref().expect("opened");
    assert!(seen.is_clean() && used.records == 1 && used.setup.total == 0x1_0012_1000, "{seen:?}");
    // The reply of QUERY_FW: four pages, revision 3.
    assert_eq!((used.reply[1], used.reply[0x0b]), (4, 3));
    assert!(matches!(used.lent, Outcome::Lent(b) if card.bus().host(b.handle).is_none()), "freed by the close");
    let m = instance.machine.clone();
    let world = &m.bus.borrow().bus;
    assert!(world.in_use().is_empty() && world.card_holds_nothing() && world.misuse().is_empty());
    assert_eq!(*m.misuse.borrow(), [""; 0]);
}

/// The memory behind a lent buffer is where the CPU sees it, zeroed, until the close.
#[test]
fn lent_memory_is_the_clients() {
    let mut instance = Instance::new(Plan::obedient(), ERROR);
    boot::hook(Some(instance.machine.clone()));
    // SAFETY: as above.
    let mut card = Box::new(unsafe { Card::new(instance.pci(), &mut []) });
    assert_eq!(card.call(Call::Open), Ok(Outcome::Open));
    assert_eq!(card.call(Call::Open), Err(Refused::Wrong), "a session is opened once");
    let Ok(Outcome::Lent(buffer)) = card.call(Call::Lend { bytes: 4096 }) else {
        panic!("lent");
    };
    let host = card.bus().host(buffer.handle).expect("its memory");
    // SAFETY: a page that is the client's.
    let page = unsafe { core::slice::from_raw_parts_mut(host.as_ptr(), 4096) };
    assert!(page.iter().all(|b| *b == 0));
    page.fill(1);
    assert_eq!(card.call(Call::Close), Ok(Outcome::Closed(Closing::Clean)));
    assert_eq!([Call::Open, Call::Close].map(|c| card.call(c)), [Err(Refused::Wrong); 2]);
    boot::hook(None);
    assert!(instance.machine.bus.borrow().bus.in_use().is_empty());
}

#[test]
fn by_seed() {
    let mut ends = [0; 2];
    for seed in 0..150 {
        let run = beside(&Plan::seeded(seed), if seed % 2 == 0 { ERROR } else { WARNING });
        ends[usize::from(run.outcomes[0] == Ok(Outcome::Open))] += 1;
        assert_eq!(run.misuse, [""; 0], "{seed}");
    }
    assert!(ends[0] > 20 && ends[1] > 20, "{ends:?}");
}

/// Each bus call in turn is reported failed: by an error, and by a warning, which leaves something where an answer would be.
#[test]
fn every_call_failed_in_turn() {
    // A line for each, and for some other things.
    let calls = plain(Plan::obedient(), &acts()).trace.lines().count() as u64;
    for call in 0..calls {
        let plan = Plan { faults: vec![Fault { call, taken: call % 2 == 0 }], ..Plan::obedient() };
        for bad in [ERROR, WARNING] {
            let run = beside(&plan, bad);
            assert_eq!(run.misuse, [""; 0], "{call}");
            assert!(run.holdings.in_use.is_empty(), "{call}");
        }
    }
}

/// A failed allocation, a short map and an address that is no page multiple: nothing is left behind.
#[test]
fn null_pages_with_success() {
    for n in 0..18 {
        let mut plan = Plan::obedient();
        plan.host.null = vec![n];
        let run = beside(&plan, ERROR);
        assert_eq!(run.outcomes[0], Ok(Outcome::Failed(Refusal::Memory, Closing::Clean)), "{n}");
        assert!(run.holdings.in_use.is_empty() && run.misuse.is_empty(), "{n}");
    }
    let mut plan = Plan::obedient();
    plan.host.null = vec![18];
    let run = beside(&plan, ERROR);
    assert_eq!(run.outcomes[..2], [Ok(Outcome::Open), Ok(Outcome::CallFailed(Refusal::Memory))]);
    assert!(run.holdings.in_use.is_empty());
}

#[test]
fn a_null_list_with_success() {
    let mut plan = Plan::obedient();
    plan.resources.odd = (0..6).map(|i| (i, Resource::Null)).collect();
    let run = beside(&plan, ERROR);
    assert_eq!(run.setup.as_ref().map(|s| (s.uar.index, s.uar.length, s.uar.how)), Some((2, None, How::NoAnswer)));
    assert!(!run.trace.contains("free_pool"), "nothing to give back");
    assert!(beside(&Plan::obedient(), ERROR).trace.contains("free_pool 2"));
}

#[test]
fn a_map_of_another_size() {
    for (n, bytes) in [(0, 0), (1, 0x800), (2, 0x2000), (17, 0x1000)] {
        let mut plan = Plan::obedient();
        plan.host.odd_maps = vec![(n, OddMap { address: None, bytes: Some(bytes) })];
        let run = beside(&plan, ERROR);
        assert_eq!(run.outcomes[0], Ok(Outcome::Failed(Refusal::Memory, Closing::Clean)), "{n}");
        assert!(run.trace.contains(&format!("unmap h{0} -> ok\nfree h{0} ", n + 1)), "{}", run.trace);
        assert!(run.holdings.in_use.is_empty() && run.holdings.mapped.is_empty(), "{n}");
    }
    let mut plan = Plan::obedient();
    plan.host.odd_maps = vec![(3, OddMap { address: Some(0x4000_0800), bytes: None })];
    let run = beside(&plan, ERROR);
    assert_eq!(run.outcomes[0], Ok(Outcome::Failed(Refusal::Address, Closing::Clean)));
    assert!(run.holdings.in_use.is_empty() && run.holdings.mapped.is_empty());
}

/// A list is copied as far as its first memory descriptor, its end tag, an unknown tag, or as there is room; no byte behind
/// is read, since it stands at the end of its allocation.
#[test]
fn lists_of_every_shape() {
    let memory = Descriptor::memory(0xe000_0000, 8 << 20);
    let io = |more: usize| Descriptor { kind: IO, more, ..memory }.bytes();
    let end = END.to_vec();
    let two = [io(0), memory.bytes(), end.clone()].concat();
    // The list, and how much of it is copied.
    let lists = [
        (end.clone(), 2),
        (vec![0x22], 1),
        (vec![0x22, 1, 2, 0x79, 0], 1),
        ([vec![0x8a, 0, 0], end.clone()].concat(), 5),
        ([memory.bytes(), end.clone()].concat(), 46),
        (memory.bytes(), 46),
        (memory.bytes()[..10].iter().copied().chain([0; 36]).collect(), 46),
        (two.clone(), 92),
        ([io(0), end.clone()].concat(), 48),
        ([io(0), vec![0x87]].concat(), 47),
        ([io(954), memory.bytes(), end.clone()].concat(), 1_046),
        ([io(LIST_BYTES - 92), memory.bytes()].concat(), LIST_BYTES),
        ([io(LIST_BYTES - 91), memory.bytes()].concat(), LIST_BYTES),
        (io(LIST_BYTES - 46), LIST_BYTES),
        ([io(LIST_BYTES), end].concat(), LIST_BYTES),
    ];
    for (list, copied) in lists {
        let mut plan = Plan::obedient();
        plan.resources.odd = vec![(2, Resource::List(list.clone()))];
        let mut instance = Instance::new(plan, ERROR);
        boot::hook(Some(instance.machine.clone()));
        // SAFETY: the instance lives longer.
        let mut bus = unsafe { PciIoBus::new(instance.pci()) };
        let mut copy = [0xee; LIST_BYTES];
        let n = bus.resource(2, &mut copy).expect("a list");
        boot::hook(None);
        assert_eq!((n, &copy[..n]), (copied, &list[..n]));
        assert!(copy[n..].iter().all(|b| *b == 0xee));
        assert_eq!(instance.machine.lists_out(), 0);
    }
}

/// The UAR BAR of the obedient card is found in lists of more than one descriptor, by the address on the bus.
#[test]
fn a_list_with_an_io_range_ahead() {
    let memory = Descriptor { offset: 1 << 32, ..Descriptor::memory(0xe000_0000u64.wrapping_sub(1 << 32), 8 << 20) };
    let io = |more: usize| Descriptor { kind: IO, more, ..Descriptor::memory(0xc000, 0x100) }.bytes();
    let end = END.to_vec();
    let good = [
        [io(0), memory.bytes(), end.clone()].concat(),
        [io(954), memory.bytes(), end.clone()].concat(),
        [io(0), memory.bytes()].concat(),
        memory.bytes(),
    ];
    assert_eq!((good[0].len(), good[1].len()), (94, 1_048));
    for list in good {
        let mut plan = Plan::obedient();
        plan.resources.odd = vec![(2, Resource::List(list.clone()))];
        let run = beside(&plan, ERROR);
        let uar = run.setup.as_ref().map(|s| (s.uar.index, s.uar.length, s.uar.how));
        assert_eq!(uar, Some((2, Some(8 << 20), How::BaseMatches)), "{} bytes", list.len());
    }
    let mut short = memory.bytes();
    short[1] = 42;
    for list in [[io(LIST_BYTES), memory.bytes(), end].concat(), short] {
        let mut plan = Plan::obedient();
        plan.resources.odd = vec![(2, Resource::List(list))];
        let run = beside(&plan, ERROR);
        assert_eq!(run.outcomes[0], Ok(Outcome::Failed(Refusal::List, Closing::Clean)));
        assert!(run.holdings.in_use.is_empty());
    }
}

/// More buffers than there are places are refused, and none is lost.
#[test]
fn as_many_places_as_a_session_holds() {
    let mut instance = Instance::new(Plan::obedient(), ERROR);
    boot::hook(Some(instance.machine.clone()));
    // SAFETY: as above.
    let mut card = Box::new(unsafe { Card::new(instance.pci(), &mut []) });
    assert_eq!(card.call(Call::Open), Ok(Outcome::Open));
    for _ in 0..64 {
        assert!(matches!(card.call(Call::Lend { bytes: 1 }), Ok(Outcome::Lent(_))));
    }
    assert_eq!(card.call(Call::Lend { bytes: 1 }), Err(Refused::Full));
    assert_eq!(instance.machine.bus.borrow().bus.in_use().len(), 82);
    assert_eq!(card.call(Call::Close), Ok(Outcome::Closed(Closing::Clean)));
    boot::hook(None);
    assert!(instance.machine.bus.borrow().bus.in_use().is_empty());
}
