//! What the tests of document 01 alone share: what is lent, in copies, and a list that changes while a call runs.

use compare::sessions::over::Over;
use session::abi::{self, UNDO_RECORDS};
use session::ffi::Lent;
use session::{Call, Question, Session, Undo, UndoList};
use world::traced::Traced;
use world::World;

/// What is lent to a call, in copies.
#[derive(Clone, PartialEq, Eq, Debug)]
pub struct Copies {
    pub state: Vec<u8>,
    pub inbox: Vec<u8>,
    pub outbox: Vec<u8>,
    pub undo: Vec<Undo>,
    pub count: usize,
    pub out: Vec<u8>,
}

impl Copies {
    pub fn of(s: &Session) -> Copies {
        let (state, inbox, outbox) = (s.state().to_vec(), s.inbox().to_vec(), s.outbox().to_vec());
        Copies { state, inbox, outbox, undo: vec![Undo::default(); UNDO_RECORDS], count: 0, out: vec![0x5a; abi::TURN] }
    }

    pub fn call(&mut self, call: impl FnOnce(Lent) -> u32) -> u32 {
        let Copies { state, inbox, outbox, undo, count, out } = self;
        call(Lent { state, inbox, outbox, undo, count: *count, out })
    }
}

/// A call that must be refused with this number, and leave every byte.
pub fn refused(copies: &Copies, number: u32, what: &str, call: impl FnOnce(Lent) -> u32) {
    let mut after = copies.clone();
    let given = after.call(call);
    assert_eq!(given, number, "{what}");
    assert!(after == *copies, "{what}: something was changed");
}

/// What is lent, with one thing too short, too long or too many.
pub fn short(copies: &Copies) -> Vec<(&'static str, Copies)> {
    let with = |change: &dyn Fn(&mut Copies)| {
        let mut c = copies.clone();
        change(&mut c);
        c
    };
    vec![
        ("state", with(&|c| c.state.truncate(abi::STATE - 1))),
        ("no state", with(&|c| c.state.clear())),
        ("inbox", with(&|c| c.inbox.truncate(abi::MAILBOX - 1))),
        ("no inbox", with(&|c| c.inbox.clear())),
        ("long inbox", with(&|c| c.inbox.push(0))),
        ("outbox", with(&|c| c.outbox.truncate(abi::MAILBOX - 1))),
        ("no outbox", with(&|c| c.outbox.clear())),
        ("long outbox", with(&|c| c.outbox.push(0))),
        ("out", with(&|c| c.out.truncate(abi::TURN - 1))),
        ("no out", with(&|c| c.out.clear())),
        ("undo records", with(&|c| (c.count, c.undo) = (UNDO_RECORDS + 1, vec![Undo::default(); UNDO_RECORDS + 1]))),
        ("short undo list", with(&|c| (c.count, c.undo) = (2, vec![Undo::default()]))),
        ("no undo list", with(&|c| (c.count, c.undo) = (1, Vec::new()))),
        ("very many undo records", with(&|c| c.count = usize::MAX)),
    ]
}

/// Makes a call and answers its questions. The list is changed once, at the first stop behind the command `op`.
pub fn changing(
    session: &mut Session,
    call: Call,
    bus: &mut Traced<World>,
    undo: &mut UndoList,
    op: u16,
    change: &dyn Fn(&mut UndoList),
) {
    let mut question = session.begin(call, undo).expect("an open session");
    let (mut list, mut changed) = ([0; 64], false);
    while question != Question::Finished {
        let answer = session.ask(&mut Over::new(bus), &mut list);
        if !changed && bus.trace.posts().any(|p| p.op == op) {
            changed = true;
            change(undo);
        }
        question = session.answer(answer, undo).expect("an answer that suits");
    }
}
