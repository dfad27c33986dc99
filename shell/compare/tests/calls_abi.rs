//! What the Rust does not know of the calls on an open session: the refusals 18 to 22 in their order, arguments that a kind does
//! not look at, lists that change while a call runs. Document 01 alone decides there.

mod lent;

use compare::calls::cases;
use compare::sessions::over::Over;
use lent::{changing, refused, short, Copies};
use session::abi::{self, UNDO_RECORDS};
use session::ffi::{self, Called};
use session::{Call, Closing, Command, Outcome, Question, Refusal, Refused, Session, Undo, UndoList};
use world::plan::{Behaviour, Later, OddMap};
use world::registers::{CLOSE_HCA, RESERVED};
use world::traced::Traced;
use world::{World, PAGE};

const KINDS: std::ops::RangeInclusive<u32> = abi::OPEN..=abi::CLOSE;
const FORMS: [u32; 5] = [abi::IMM, abi::WITH_IN, abi::WITH_OUT, abi::IN_IMM, abi::IN_OUT];
/// An opcode that a client may send.
const FREE: u16 = 0x020;
/// The most bytes that can be lent.
const MOST: u64 = 0u64.wrapping_sub(PAGE);

type Bus = Traced<World>;

/// An opened session, and its world.
fn opened() -> (Box<Session>, Bus) {
    let mut bus = Traced::new(World::new(cases::chosen()[0].plan.clone()));
    let mut session = Box::new(Session::with_mailboxes([0xa5; 4096], [0xa5; 4096]));
    let outcome = session.open(&mut Over::new(&mut bus), &mut UndoList::new(&mut []));
    assert_eq!(outcome, Ok(Outcome::Open));
    bus.take();
    (session, bus)
}

fn record(op: u16) -> Undo {
    Undo { op, ..Undo::default() }
}

/// A list of these opcodes; the caller may have written any.
fn records(ops: &[u16]) -> Vec<Undo> {
    ops.iter().map(|op| record(*op)).collect()
}

fn command(kind: u32, op: u16) -> Called<'static> {
    Called { op, ..Called::of(kind, 0) }
}

/// What is lent, with these records on the list.
fn holding(session: &Session, ops: &[u16]) -> Copies {
    Copies { undo: records(ops), count: ops.len(), ..Copies::of(session) }
}

/// A call that is taken.
fn taken(copies: &Copies, what: &str, call: Called) -> Copies {
    let mut after = copies.clone();
    assert_eq!(after.call(|l| ffi::call(l, call)), 0, "{what}");
    after
}

/// Opcodes that no client may send.
fn reserved() -> Vec<u16> {
    RESERVED.into_iter().chain([0x1000, 0x1020, 0xffff]).collect()
}

#[test]
fn calls_at_the_wrong_time() {
    let (mut open, mut bus) = opened();
    let fresh = Session::new();
    let mut undo = [];
    for (session, right) in [(&fresh, vec![abi::OPEN]), (&open, (abi::IMM..=abi::CLOSE).collect())] {
        for kind in KINDS.chain([10, 11, 255, 256, u32::MAX]).filter(|k| !right.contains(k)) {
            let call = command(kind, 0xfff);
            refused(&Copies::of(session), abi::WRONG, &format!("kind {kind}"), |l| ffi::call(l, call));
            for (what, c) in short(&Copies::of(session)) {
                let number = if kind <= abi::CLOSE && what.ends_with("state") { abi::SHORT } else { abi::WRONG };
                refused(&c, number, &format!("kind {kind}, {what}"), |l| ffi::call(l, call));
            }
        }
    }
    open.close(&mut Over::new(&mut bus), &mut UndoList::new(&mut undo)).expect("an open session");
    for kind in KINDS {
        refused(&Copies::of(&open), abi::WRONG, "a closed session", |l| ffi::call(l, command(kind, FREE)));
    }
}

/// 21 goes before 22, 19 and 18.
#[test]
fn short_slices_at_every_call() {
    let (session, _) = opened();
    for kind in KINDS.skip(1) {
        for op in [FREE, 0xfff] {
            for (what, c) in short(&Copies::of(&session)) {
                let call = Called { op, ..Called::of(kind, u64::MAX) };
                refused(&c, abi::SHORT, &format!("kind {kind} {op:x} {what}"), |l| ffi::call(l, call));
            }
        }
    }
}

/// An input is looked at by the forms that have one.
#[test]
fn inputs_of_any_length() {
    let (session, _) = opened();
    let bytes = vec![0x77; 70_000];
    for kind in KINDS.skip(1) {
        let has = [abi::WITH_IN, abi::IN_IMM, abi::IN_OUT].contains(&kind);
        for length in [0, 1, 4095, 4096, 4097, 65_536, 70_000] {
            let call = Called { input: &bytes[..length], ..command(kind, FREE) };
            let (copies, what) = (Copies::of(&session), format!("kind {kind}, {length} bytes"));
            if has && length > 4096 {
                refused(&copies, abi::SHORT, &what, |l| ffi::call(l, call));
                continue;
            }
            let after = taken(&copies, &what, call);
            let mut inbox = copies.inbox.clone();
            if has {
                inbox = bytes[..length].to_vec();
                inbox.resize(4096, 0);
            }
            assert!(after.inbox == inbox, "{what}");
            let zeroed = [abi::WITH_OUT, abi::IN_OUT].contains(&kind);
            assert!(if zeroed { after.outbox == [0; 4096] } else { after.outbox == copies.outbox }, "{what}");
        }
    }
}

/// Every form, with every opcode that is not the client's to send; the others are.
#[test]
fn reserved_opcodes() {
    let (session, _) = opened();
    let copies = Copies::of(&session);
    for kind in FORMS {
        for op in reserved() {
            refused(&copies, abi::RESERVED, &format!("kind {kind} {op:x}"), |l| ffi::call(l, command(kind, op)));
        }
    }
    for op in (0..0x1000).filter(|op| !RESERVED.contains(op)) {
        taken(&copies, &format!("{op:x}"), command(abi::IMM, op));
    }
    for kind in [abi::LEND, abi::UNDO_TO, abi::QUIESCE, abi::CLOSE] {
        taken(&copies, "no opcode is looked at", command(kind, 0xfff));
    }
}

/// 22 of any record that is wanted, broken or not; what lies below the mark is not looked at.
#[test]
fn reserved_records() {
    let (mut session, mut bus) = opened();
    for broken in [false, true] {
        for op in reserved() {
            for at in 0..3 {
                let mut ops = [FREE; 3];
                ops[at] = op;
                let copies = holding(&session, &ops);
                for mark in [0, 1, 2, 3, 4, u64::MAX] {
                    let (call, what) =
                        (Called::of(abi::UNDO_TO, mark), format!("{op:x} at {at}, mark {mark}, {broken}"));
                    if mark <= at as u64 {
                        refused(&copies, abi::RESERVED, &what, |l| ffi::call(l, call));
                    } else {
                        taken(&copies, &what, call);
                    }
                }
            }
        }
        session.call(Call::Quiesce, &mut Over::new(&mut bus), &mut UndoList::new(&mut [])).expect("an open session");
    }
}

/// A mark at or above the length asks nothing.
#[test]
fn nothing_to_undo() {
    let (mut session, mut bus) = opened();
    let mut list = records(&[FREE; 2]);
    for broken in [false, true] {
        let mut undo = UndoList::holding(&mut list, 2);
        for mark in [2, 3, 256, 257, usize::MAX] {
            assert_eq!(session.begin(Call::UndoTo { mark }, &mut undo), Ok(Question::Finished), "{broken}");
            assert_eq!((session.result(), undo.len()), (Ok(Outcome::Open), 2));
        }
        let over = &mut Over::new(&mut bus);
        session.call(Call::Quiesce, over, &mut UndoList::new(&mut [])).expect("an open session");
    }
}

/// 19 at 64 buffers, before 18; 18 above 2^64 - 4,096 bytes.
#[test]
fn lendings_that_are_refused() {
    let (mut session, mut bus) = opened();
    let lend = |bytes: u64| Called::of(abi::LEND, bytes);
    for bytes in [MOST + 1, MOST + 2, u64::MAX] {
        refused(&Copies::of(&session), abi::BYTES, "too many bytes", |l| ffi::call(l, lend(bytes)));
    }
    let mut undo = UndoList::new(&mut []);
    assert_eq!(session.begin(Call::Lend { bytes: MOST }, &mut undo), Ok(Question::Allocate { pages: (1 << 52) - 1 }));
    let over = &mut Over::new(&mut bus);
    assert_eq!(session.finish(over, &mut undo), Ok(Outcome::CallFailed(Refusal::Memory)));
    for _ in 0..abi::LENT_BUFFERS {
        assert!(matches!(session.call(Call::Lend { bytes: 1 }, over, &mut undo), Ok(Outcome::Lent(_))));
    }
    for bytes in [0, 1, MOST, MOST + 1, u64::MAX] {
        refused(&Copies::of(&session), abi::FULL, "a full list", |l| ffi::call(l, lend(bytes)));
    }
    assert_eq!(session.call(Call::Lend { bytes: 1 }, over, &mut undo), Err(Refused::Full));
    assert_eq!(session.books().expect("a session").lent().len(), abi::LENT_BUFFERS);
    assert_eq!(session.close(over, &mut undo), Ok(Outcome::Closed(Closing::Clean)));
    assert!(bus.bus.in_use().is_empty() && bus.bus.misuse().is_empty());
}

/// A device address that is no page multiple, or whose end lies above 2^64: 18, and the buffer goes back.
#[test]
fn a_lent_buffer_at_a_bad_address() {
    let ends = [(1, 1, 18), (0x1001, 1, 18), (u64::MAX, 1, 18), (MOST, 1, 0), (MOST, 2, 18), (MOST - PAGE, 2, 0)];
    for (address, pages, number) in ends {
        let (mut session, mut bus) = opened();
        let odd_maps = vec![(0, OddMap { address: Some(address), bytes: None })];
        bus.bus.schedule(Later { odd_maps, ..Later::default() });
        let (mut undo, before) = (UndoList::new(&mut []), session.books());
        let lend = Call::Lend { bytes: pages * PAGE };
        let outcome = session.call(lend, &mut Over::new(&mut bus), &mut undo).expect("an open session");
        if number == 0 {
            assert!(matches!(outcome, Outcome::Lent(b) if (b.address, b.pages) == (address, pages)), "{outcome:?}");
            continue;
        }
        assert_eq!(outcome, Outcome::CallFailed(Refusal::Address), "{address:x}");
        assert_eq!(session.books(), before);
        let said = bus.take().full();
        assert!(said.contains("unmap h19 -> ok\nfree h19 ") && bus.bus.in_use().len() == 18, "{said}");
    }
}

/// The order of 21, 22, 19: a slice without a place comes before the opcode, and a full list asks for no place.
#[test]
fn a_push_tells_21_before_22_before_19() {
    let pushed = |records: usize, op: u16| {
        let mut list = vec![record(0x20); records];
        (ffi::push_undo(&mut list, records, record(op)), list == vec![record(0x20); records])
    };
    assert_eq!(pushed(5, 0xfff), (abi::SHORT, true));
    assert_eq!(pushed(255, 0xfff), (abi::SHORT, true));
    assert_eq!(pushed(256, 0x20), (abi::FULL, true));
    assert_eq!(pushed(256, 0xfff), (abi::RESERVED, true));
    let mut list = [record(1), Undo::default()];
    let mut undo = UndoList::holding(&mut list[..1], 1);
    assert_eq!((undo.push(record(0xfff)), undo.len()), (Err(Refused::Short), 1));
}

/// Every push in that order, and that nothing else is written.
#[test]
fn pushing_records() {
    for records in [0, 1, 2, 255, 256, 257, 300] {
        for count in [0, 1, 2, 254, 255, 256, 257, 300, usize::MAX] {
            for op in [FREE, 0x004, 0xfff, 0x1000] {
                let number = match count {
                    n if n > UNDO_RECORDS || records < UNDO_RECORDS.min(n + 1) => abi::SHORT,
                    _ if op >= 0xfff => abi::RESERVED,
                    UNDO_RECORDS => abi::FULL,
                    _ => 0,
                };
                let mut list: Vec<Undo> = (0..records).map(|n| record(n as u16)).collect();
                let pushed = Undo { op, op_mod: 0xee, in_mod: u32::MAX - 1, in_param: u64::MAX - 2 };
                let mut must = list.clone();
                if number == 0 {
                    must[count] = pushed;
                }
                assert_eq!(ffi::push_undo(&mut list, count, pushed), number, "{records} {count} {op:x}");
                assert!(list == must, "{records} {count} {op:x}");
            }
        }
    }
    let mut list = [Undo::default(); 2];
    let mut undo = UndoList::new(&mut list);
    assert_eq!((undo.push(record(1)), undo.push(record(0xfff))), (Ok(()), Err(Refused::Reserved)));
    assert_eq!((undo.push(record(2)), undo.push(record(3)), undo.mark()), (Ok(()), Err(Refused::Short), 2));
    assert_eq!(undo.records(), [record(1), record(2)]);
}

/// The opcodes that a call sends when the list is changed at its first stop behind the command `op`; its outcome, and the
/// opcodes that are left.
fn changed(call: Call, ops: &[u16], op: u16, change: &dyn Fn(&mut UndoList)) -> (Vec<u16>, Outcome, Vec<u16>, bool) {
    let (mut session, mut bus) = opened();
    let mut room = records(ops);
    room.resize(UNDO_RECORDS, Undo::default());
    let mut undo = UndoList::holding(&mut room, ops.len());
    changing(&mut session, call, &mut bus, &mut undo, op, change);
    let left = undo.records().iter().map(|u| u.op).collect();
    let sent = bus.take().posts().map(|p| p.op).take(4).collect();
    (sent, session.result().expect("a session"), left, session.books().expect("a session").broken)
}

fn set(at: usize, op: u16) -> impl Fn(&mut UndoList) {
    move |undo: &mut UndoList| undo.records_mut()[at].op = op
}

/// A record that has become reserved ends an `undo_to` with 22 at its turn: those sent stay off, it stays on, nothing breaks.
#[test]
fn a_record_that_becomes_reserved() {
    let all = [0x21, 0x22, 0x23];
    let failed = Outcome::CallFailed(Refusal::Reserved);
    let got = changed(Call::UndoTo { mark: 0 }, &all, 0x23, &set(1, 0xff6));
    assert_eq!(got, (vec![0x23], failed, vec![0x21, 0xff6], false));
    let got = changed(Call::UndoTo { mark: 0 }, &all, 0x23, &set(0, 0x1000));
    assert_eq!(got, (vec![0x23, 0x22], failed, vec![0x1000], false));
    let got = changed(Call::UndoTo { mark: 1 }, &all, 0x23, &set(0, 0x1000));
    assert_eq!(got, (vec![0x23, 0x22], Outcome::Open, vec![0x1000], false));
    // In a quiesce it counts as a failed undo command: no command follows.
    let got = changed(Call::Quiesce, &all, 0x23, &set(1, 0xff6));
    assert_eq!(got, (vec![0x23], Outcome::Open, vec![0x21, 0xff6], true));
    let got = changed(Call::Close, &all, 0x23, &set(1, 0xff6));
    assert_eq!((got.0, got.1, got.2), (vec![0x23], Outcome::Closed(Closing::Reset), vec![0x21, 0xff6]));
}

/// At each turn the newest record of the list as it is lent then is sent, while there are more than the mark.
#[test]
fn a_list_that_changes_while_it_is_undone() {
    let more = |undo: &mut UndoList| undo.push(record(0x24)).expect("room");
    let to = |mark: usize| Call::UndoTo { mark };
    let got = changed(to(1), &[0x21, 0x22], 0x22, &more);
    assert_eq!(got, (vec![0x22, 0x24], Outcome::Open, vec![0x21], false));
    let got = changed(to(0), &[0x21, 0x22, 0x23], 0x23, &|undo| undo.truncate(1));
    assert_eq!(got, (vec![0x23, 0x21], Outcome::Open, vec![], false));
    let got = changed(to(1), &[0x21, 0x22, 0x23], 0x23, &|undo| undo.truncate(0));
    assert_eq!(got, (vec![0x23], Outcome::Open, vec![], false));
    let got = changed(Call::Quiesce, &[0x21, 0x22], 0x22, &more);
    assert_eq!((got.0, got.2), (vec![0x22, 0x24, 0x21, CLOSE_HCA], vec![]));
}

/// The count is the caller's: a record that was popped and is counted again, as it stands there still, is sent again.
#[test]
fn a_record_that_is_counted_again_is_sent_again() {
    let again = |undo: &mut UndoList| undo.push(record(0x22)).expect("a place");
    let got = changed(Call::UndoTo { mark: 0 }, &[0x21, 0x22], 0x22, &again);
    assert_eq!(got, (vec![0x22, 0x22, 0x21], Outcome::Open, vec![], false));
}

/// A reserved record on the list from the start: a quiesce and a close meet it at its turn.
#[test]
fn a_reserved_record_at_a_quiesce_or_a_close() {
    for (call, outcome) in [(Call::Quiesce, Outcome::Open), (Call::Close, Outcome::Closed(Closing::Reset))] {
        let got = changed(call, &[0x21, 0xfff, 0x23], 0, &|_| {});
        assert_eq!((got.0, got.1, got.2), (vec![0x23], outcome, vec![0x21, 0xfff]));
        let got = changed(call, &[0x21, 0xfff], 0, &|_| {});
        assert_eq!((got.0, got.1, got.2), (vec![], outcome, vec![0x21, 0xfff]));
    }
}

/// An undo record is off the list from its first question on.
#[test]
fn a_record_is_off_before_it_is_sent() {
    let (mut session, _) = opened();
    let mut list = records(&[FREE; 3]);
    for (left, call) in [(2, Call::UndoTo { mark: 0 }), (2, Call::Quiesce), (2, Call::Close)] {
        let copies = Copies { undo: list.clone(), count: 3, ..Copies::of(&session) };
        let after = taken(&copies, "three records", call.called());
        assert_eq!(abi::Words(&after.out).at(4), left, "{call:?}");
        assert_eq!(after.undo, copies.undo);
    }
    let mut undo = UndoList::holding(&mut list, 3);
    session.begin(Call::UndoTo { mark: 2 }, &mut undo).expect("an open session");
    assert_eq!((undo.len(), session.result()), (2, Ok(Outcome::Running)));
}

/// What a call gave is told until the next one begins, and the opening's findings stay.
#[test]
fn results_of_calls() {
    let (mut session, mut bus) = opened();
    let setup = session.setup().expect("open");
    let mut undo = UndoList::new(&mut []);
    let command = Command { op: FREE, op_mod: 0, in_mod: 7 };
    let commands = vec![(1, Behaviour { polls: 2, status: 9 })];
    bus.bus.schedule(Later { commands, ..Later::default() });
    let over = &mut Over::new(&mut bus);
    let (imm, with_in) = (Call::Imm { command, in_param: 1 }, Call::WithIn { command, input: &[1] });
    let good = session.call(imm, over, &mut undo).expect("an open session");
    assert!(matches!(good, Outcome::Done { us: 0, .. }));
    let status = Outcome::CallFailed(Refusal::Status { status: 9, us: 2 });
    assert_eq!(session.call(with_in, over, &mut undo), Ok(status));
    let in_out = Call::InOut { command, input: &[] };
    for call in [with_in, Call::WithOut { command }, in_out] {
        assert_eq!(session.call(call, over, &mut undo), Ok(Outcome::Done { immediate: 0, us: 0 }), "{call:?}");
    }
    let in_imm = session.call(Call::InImm { command, input: &[] }, over, &mut undo);
    assert!(matches!(in_imm, Ok(Outcome::Done { us: 0, .. })));
    let lent = session.call(Call::Lend { bytes: 4097 }, over, &mut undo).expect("an open session");
    assert!(matches!(lent, Outcome::Lent(b) if b.pages == 2 && b.handle == 19));
    assert_eq!(session.result(), Ok(lent));
    assert_eq!(session.setup().as_ref(), Ok(&setup));
    session.begin(Call::Imm { command, in_param: 0 }, &mut undo).expect("an open session");
    assert_eq!((session.result(), session.setup()), (Ok(Outcome::Running), Err(Refused::Wrong)));
    assert!(matches!(session.finish(over, &mut undo), Ok(Outcome::Done { .. })));
    assert_eq!(session.call(Call::Quiesce, over, &mut undo), Ok(Outcome::Open));
    assert_eq!(session.setup().as_ref(), Ok(&setup));
    assert_eq!(session.close(over, &mut undo), Ok(Outcome::Closed(Closing::Reset)));
    assert_eq!(session.setup(), Err(Refused::Wrong));
}
