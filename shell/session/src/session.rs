//! A session, and the loop that answers its questions.

use crate::abi::{self, Turn, Words, MAILBOX, STATE};
use crate::books::Books;
use crate::bus::{Bus, Fence, Mailbox};
use crate::call::Call;
use crate::ffi::{self, Lent, Reader, Told};
use crate::outcome::Outcome;
use crate::question::{Answer, Attribute, Question};
use crate::setup::Setup;
use crate::undo::UndoList;

/// Why a call was not taken. It has changed nothing, and an open question stays open. Where several fit, it is the first of
/// 20, 21, 22, 19, 18; `UndoList::push` looks for a place in its slice last.
#[derive(Clone, Copy, PartialEq, Eq, Debug)]
pub enum Refused {
    /// 20: a call at the wrong time, an answer of the wrong kind, or bytes that are no session.
    Wrong,
    /// 21: an input of more than 4,096 bytes, more than 256 records on the undo list, or a slice for them that has no place
    /// left.
    Short,
    /// 22: an opcode that bring-up or closing sends, queries excepted, or that is above 0xfff; at `undo_to` that of any
    /// record that is wanted.
    Reserved,
    /// 19: 64 buffers are lent, or 256 undo records stand on the list.
    Full,
    /// 18: more than 2^64 - 4,096 bytes are to be lent.
    Bytes,
    /// The library gave a number or a word that include/hca.h does not have.
    Unknown,
}

/// The room for a resource list. An I/O range and a memory range with the end tag have 94 bytes; of a list that is longer
/// than this room no more is handed on.
pub const LIST_BYTES: usize = 2048;

/// A card's session: its bytes, the two mailboxes, and what a fence has to know. It is some 13 KB, and needs no
/// allocation; it may be moved between two calls.
pub struct Session {
    state: [u8; STATE],
    inbox: Mailbox,
    outbox: Mailbox,
    question: Question,
    /// The open question is a fence behind a write, not behind a read.
    before: bool,
    /// The pages of the good allocations, as far as the second.
    boxes: [u64; 2],
    allocated: usize,
}

impl Default for Session {
    fn default() -> Session {
        Session::new()
    }
}

impl Session {
    /// A session that was never opened. It is opened once; a new opening takes a new session.
    pub fn new() -> Session {
        Session::with_mailboxes([0; MAILBOX], [0; MAILBOX])
    }

    /// The same with mailboxes that hold anything: each is zeroed once its pages are there.
    pub fn with_mailboxes(inbox: Mailbox, outbox: Mailbox) -> Session {
        let mut state = [0; STATE];
        // The bytes are as many as it takes.
        let _ = ffi::fresh(&mut state);
        Session { state, inbox, outbox, question: Question::Finished, before: false, boxes: [0; 2], allocated: 0 }
    }

    /// `Call::Open`, to its result.
    pub fn open(&mut self, bus: &mut impl Bus, undo: &mut UndoList) -> Result<Outcome, Refused> {
        self.call(Call::Open, bus, undo)
    }

    /// `Call::Close`, to its result.
    pub fn close(&mut self, bus: &mut impl Bus, undo: &mut UndoList) -> Result<Outcome, Refused> {
        self.call(Call::Close, bus, undo)
    }

    /// A call from its beginning to its result.
    pub fn call(&mut self, call: Call, bus: &mut impl Bus, undo: &mut UndoList) -> Result<Outcome, Refused> {
        self.begin(call, undo)?;
        self.finish(bus, undo)
    }

    /// Answers questions until none is open. The open one is kept as the numbers that the library says, so that an answer
    /// costs few instructions; `ask` and `answer` are for those who step by hand.
    pub fn finish(&mut self, bus: &mut impl Bus, undo: &mut UndoList) -> Result<Outcome, Refused> {
        let mut list = [0; LIST_BYTES];
        let mut out = self.question.turn();
        while let Some(told) = self.asked(&out, bus, &mut list) {
            let written = out[0] == abi::REG_WRITE;
            if let Err(why) = self.told(told, undo, &mut out) {
                // What is refused has written nothing: the same question is open.
                self.question = Question::said(&out).unwrap_or(self.question);
                return Err(why);
            }
            self.before = written;
        }
        self.question = Question::said(&out).ok_or(Refused::Unknown)?;
        self.result()
    }

    /// Begins a call; its first question, or `Question::Finished` where there is nothing to ask.
    pub fn begin(&mut self, call: Call, undo: &mut UndoList) -> Result<Question, Refused> {
        let mut out = [0; 5];
        self.turn(undo, &mut out, |lent| ffi::call(lent, call.called()))?;
        self.opens(&out)
    }

    /// Hands in what came of the open question; the next one.
    pub fn answer(&mut self, answer: Answer, undo: &mut UndoList) -> Result<Question, Refused> {
        let mut out = [0; 5];
        self.told(answer.told(), undo, &mut out)?;
        self.opens(&out)
    }

    /// Does what the open question says. `list` takes the bytes of a resource list.
    pub fn ask<'a>(&mut self, bus: &mut impl Bus, list: &'a mut [u8]) -> Answer<'a> {
        self.asked(&self.question.turn(), bus, list).map_or(Answer::Done, Answer::of)
    }

    /// Does what a question says; `None` where nothing is asked, or the words are no question.
    #[inline(always)]
    fn asked<'a>(&mut self, open: &Turn, bus: &mut impl Bus, list: &'a mut [u8]) -> Option<Told<'a>> {
        let [kind, a, b, c, _] = *open;
        Some(match kind {
            abi::REG_READ => got(abi::DWORD, bus.register_read(a.try_into().ok()?, b)),
            abi::REG_WRITE => done(bus.register_write(a.try_into().ok()?, b, c.try_into().ok()?)),
            abi::STALL => {
                bus.stall(a.try_into().ok()?);
                done(true)
            }
            abi::FENCE => {
                bus.fence(self.fence());
                done(true)
            }
            abi::CONFIG_READ16 => got(abi::WORD, bus.config_read16(a.try_into().ok()?)),
            abi::CONFIG_READ32 => got(abi::DWORD, bus.config_read32(a.try_into().ok()?)),
            abi::CONFIG_WRITE16 => done(bus.config_write16(a.try_into().ok()?, b.try_into().ok()?)),
            abi::CONFIG_WRITE32 => done(bus.config_write32(a.try_into().ok()?, b.try_into().ok()?)),
            abi::ATTRIBUTES => got(abi::QWORD, bus.attributes(Attribute::of(a)?, b)),
            abi::RESOURCE => resource(bus, a.try_into().ok()?, list),
            abi::ALLOCATE => got(abi::HANDLE, bus.allocate(a)),
            abi::MAP => bus.map(a, b).map_or(FAILED, |m| Told { b: m.bytes, ..got(abi::MAPPED, Some(m.address)) }),
            abi::UNMAP => done(bus.unmap(a)),
            abi::FREE => done(bus.free(a, b)),
            _ => return None,
        })
    }

    /// Hands in what was told.
    #[inline(always)]
    fn told(&mut self, told: Told, undo: &mut UndoList, out: &mut Turn) -> Result<(), Refused> {
        self.turn(undo, out, |lent| ffi::answer(lent, told))?;
        if told.kind == abi::HANDLE {
            if let Some(pages) = self.boxes.get_mut(self.allocated) {
                *pages = told.a;
                self.allocated += 1;
            }
        }
        Ok(())
    }

    /// A question is open.
    fn opens(&mut self, turn: &Turn) -> Result<Question, Refused> {
        let next = Question::said(turn).ok_or(Refused::Unknown)?;
        self.before = matches!(self.question, Question::RegisterWrite { .. });
        self.question = next;
        Ok(next)
    }

    fn fence(&mut self) -> Fence<'_> {
        let [inbox_pages, outbox_pages] = self.boxes;
        if self.before {
            Fence::ToDevice { inbox: &self.inbox, inbox_pages, outbox: &self.outbox, outbox_pages }
        } else {
            Fence::FromDevice { outbox: &mut self.outbox, outbox_pages }
        }
    }

    /// The open question, as the session's bytes have it.
    pub fn question(&self) -> Result<Question, Refused> {
        let mut out = [0; abi::QUESTION];
        self.read(Reader::Question, &mut out)?;
        Question::of(&Words(&out)).ok_or(Refused::Unknown)
    }

    /// What has become of the session, and what its last call gave.
    pub fn result(&self) -> Result<Outcome, Refused> {
        let mut out = [0; abi::RESULT];
        self.read(Reader::Result, &mut out)?;
        Outcome::of(&Words(&out)).ok_or(Refused::Unknown)
    }

    /// What the opening has found out; only of an open session.
    pub fn setup(&self) -> Result<Setup, Refused> {
        let mut out = [0; abi::SETUP];
        self.read(Reader::Setup, &mut out)?;
        Setup::of(&Words(&out)).ok_or(Refused::Unknown)
    }

    /// What the session holds, at any time: also while a buffer is being made or freed.
    pub fn books(&self) -> Result<Books, Refused> {
        let mut out = [0; abi::BOOKS];
        self.read(Reader::Books, &mut out)?;
        Books::of(&Words(&out)).ok_or(Refused::Unknown)
    }

    /// The session's bytes, as they are lent.
    pub fn state(&self) -> &[u8; STATE] {
        &self.state
    }

    /// The inbox, as it is lent.
    pub fn inbox(&self) -> &Mailbox {
        &self.inbox
    }

    /// The outbox, as it is lent: after a good `WithOut` or `InOut` it has the reply, until the next call.
    pub fn outbox(&self) -> &Mailbox {
        &self.outbox
    }

    fn read(&self, which: Reader, out: &mut [u8]) -> Result<(), Refused> {
        taken(ffi::read(which, &self.state, out))
    }

    /// One call: all is lent, `out` has what the library says then, and the undo list is cut to what is left on it.
    #[inline(always)]
    fn turn(&mut self, undo: &mut UndoList, out: &mut Turn, call: impl FnOnce(Lent) -> u32) -> Result<(), Refused> {
        let Session { state, inbox, outbox, .. } = self;
        let out_bytes = ffi::bytes(out);
        taken(call(Lent { state, inbox, outbox, undo: undo.room(), count: undo.len(), out: out_bytes }))?;
        undo.truncate(usize::try_from(out[4]).map_err(|_| Refused::Unknown)?);
        Ok(())
    }
}

/// A call's number.
#[inline]
pub(crate) fn taken(number: u32) -> Result<(), Refused> {
    match number {
        0 => Ok(()),
        abi::BYTES => Err(Refused::Bytes),
        abi::FULL => Err(Refused::Full),
        abi::WRONG => Err(Refused::Wrong),
        abi::SHORT => Err(Refused::Short),
        abi::RESERVED => Err(Refused::Reserved),
        _ => Err(Refused::Unknown),
    }
}

/// Any call that failed.
const FAILED: Told<'static> = Told { kind: abi::FAILED, a: 0, b: 0, resource: &[] };

fn done(good: bool) -> Told<'static> {
    Told { kind: if good { abi::DONE } else { abi::FAILED }, ..FAILED }
}

fn got(kind: u32, value: Option<impl Into<u64>>) -> Told<'static> {
    value.map_or(FAILED, |v| Told { kind, a: v.into(), ..FAILED })
}

fn resource<'a>(bus: &mut impl Bus, bar: u8, list: &'a mut [u8]) -> Told<'a> {
    match bus.resource(bar, list) {
        Some(n) => Told { kind: abi::LIST, resource: &list[..n.min(list.len())], ..FAILED },
        None => FAILED,
    }
}
