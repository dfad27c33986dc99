//! Lists of calls on one session, also by seed.

use crate::plan::{Behaviour, Fault, Later, NEVER};
use crate::prng::Prng;
use crate::registers::{QUERIES, RESERVED};
use crate::results::Undo;
use crate::seeded::odd_map;
use crate::PAGE;

/// The five forms of a command.
#[derive(Clone, Copy, PartialEq, Eq, Debug)]
pub enum Form {
    Imm,
    WithIn,
    WithOut,
    InImm,
    InOut,
}

impl Form {
    pub const ALL: [Form; 5] = [Form::Imm, Form::WithIn, Form::WithOut, Form::InImm, Form::InOut];

    /// The inbox is zeroed and has the input.
    pub fn has_input(self) -> bool {
        matches!(self, Form::WithIn | Form::InImm | Form::InOut)
    }

    /// The outbox is zeroed and gets the reply.
    pub fn has_reply(self) -> bool {
        matches!(self, Form::WithOut | Form::InOut)
    }

    /// The immediate is told.
    pub fn has_immediate(self) -> bool {
        matches!(self, Form::Imm | Form::InImm)
    }
}

/// A client command. `in_param` is for `Imm`, `input` for the forms with an inbox.
#[derive(Clone, PartialEq, Eq, Debug)]
pub struct Command {
    pub form: Form,
    pub op: u16,
    pub op_mod: u8,
    pub in_mod: u32,
    pub in_param: u64,
    pub input: Vec<u8>,
}

#[derive(Clone, PartialEq, Eq, Debug)]
pub enum Call {
    Open,
    Command(Command),
    Lend { bytes: u64 },
    PushUndo(Undo),
    UndoTo { mark: u64 },
    Quiesce,
    Close,
}

/// The calls of a session, and what the world does from the good opening on.
#[derive(Clone, Debug)]
pub struct List {
    pub calls: Vec<Call>,
    pub later: Later,
}

/// An opening, some calls on the open session, mostly a close. No list of the session fills up.
pub fn seeded(seed: u64) -> List {
    let mut m = Maker { r: Prng::new(seed ^ 0x6361_6c6c), calls: vec![Call::Open], pushed: 0, records: 0, lent: 0 };
    m.middle_part();
    m.end_part();
    let Maker { mut r, calls, .. } = m;
    List { calls, later: later(&mut r) }
}

/// A list in the making.
struct Maker {
    r: Prng,
    calls: Vec<Call>,
    /// The undo records so far, and those on the list if all goes well.
    pushed: u64,
    records: u64,
    lent: u64,
}

/// What document 01's lists hold.
const RECORDS: u64 = 256;
const LENT: u64 = 64;

impl Maker {
    /// Calls on the open session; now and then very many of one kind.
    fn middle_part(&mut self) {
        match self.r.below(400) {
            0 => (0..LENT).for_each(|_| self.lend(1)),
            1 => (0..RECORDS).for_each(|_| self.push()),
            _ => {}
        }
        let length = self.r.pick(&[0, 1, 2, 3, 4, 5, 6, 8, 12, 20]);
        (0..length).for_each(|_| self.middle());
    }

    /// A quiesce or two with calls behind them, and a close.
    fn end_part(&mut self) {
        if self.r.one_in(3) {
            self.calls.push(Call::Quiesce);
            let length = self.r.pick(&[0, 0, 1, 2, 4]);
            (0..length).for_each(|_| self.middle());
        }
        if !self.r.one_in(8) {
            self.calls.push(Call::Close);
        }
    }

    fn middle(&mut self) {
        match self.r.below(32) {
            0 => self.calls.push(Call::Quiesce),
            1..6 => {
                let bytes = lent_bytes(&mut self.r);
                self.lend(bytes);
            }
            6..12 => {
                let times = self.r.pick(&[1, 1, 2, 3]);
                (0..times).for_each(|_| self.push());
            }
            12..16 => self.undo_to(),
            _ => {
                let command = command(&mut self.r);
                self.calls.push(Call::Command(command));
            }
        }
    }

    fn lend(&mut self, bytes: u64) {
        if self.lent < LENT {
            self.lent += 1;
            self.calls.push(Call::Lend { bytes });
        }
    }

    fn push(&mut self) {
        if self.pushed < RECORDS {
            self.pushed += 1;
            self.records += 1;
            let record = undo(&mut self.r);
            self.calls.push(Call::PushUndo(record));
        }
    }

    /// A mark below, at or above the length.
    fn undo_to(&mut self) {
        let n = self.records;
        let mark = self.r.pick(&[0, 0, n / 2, n.saturating_sub(1), n.saturating_sub(1), n, n + 1, u64::MAX]);
        self.records = n.min(mark);
        self.calls.push(Call::UndoTo { mark });
    }
}

/// No bytes, some pages, or more than the host has.
fn lent_bytes(r: &mut Prng) -> u64 {
    let any = r.below(40_000);
    r.pick(&[0, 1, PAGE - 1, PAGE, PAGE + 1, any, any, any, any, 1 << 40, u64::MAX - PAGE, u64::MAX - PAGE + 1])
}

/// An opcode that a client may send, now and then one of the queries that bring-up sends.
fn opcode(r: &mut Prng) -> u16 {
    if r.one_in(6) {
        return r.pick(&QUERIES);
    }
    loop {
        let op = r.below(0x1000) as u16;
        if !RESERVED.contains(&op) {
            return op;
        }
    }
}

fn undo(r: &mut Prng) -> Undo {
    Undo { op: opcode(r), op_mod: r.next_u64() as u8, in_mod: r.next_u64() as u32, in_param: r.next_u64() }
}

fn command(r: &mut Prng) -> Command {
    let form = r.pick(&Form::ALL);
    let length = r.pick(&[0, 1, 2, 8, 16, 64, 300, 4095, 4096]);
    Command {
        form,
        op: opcode(r),
        op_mod: r.next_u64() as u8,
        in_mod: r.next_u64() as u32,
        in_param: r.next_u64(),
        input: if form.has_input() { r.bytes(length) } else { Vec::new() },
    }
}

/// Mostly one thing goes wrong behind the opening, or none.
fn later(r: &mut Prng) -> Later {
    let (commands, faults) = (r.pick(&[0, 0, 0, 1, 1, 2, 4]), r.pick(&[0, 0, 0, 0, 1, 1, 2]));
    Later {
        commands: (0..commands).map(|_| (r.below(20), behaviour(r))).collect(),
        faults: (0..faults).map(|_| Fault { call: r.below(400), taken: r.one_in(2) }).collect(),
        null: if r.one_in(12) { vec![r.below(4)] } else { Vec::new() },
        odd_maps: if r.one_in(12) { vec![(r.below(4), odd_map(r))] } else { Vec::new() },
    }
}

fn behaviour(r: &mut Prng) -> Behaviour {
    let polls = if r.one_in(40) { NEVER } else { r.pick(&[0, 0, 1, 2, 3, 10, 999, 1_000, 1_001, 1_500]) };
    Behaviour { polls, status: r.pick(&[0, 0, 1, 2, 3, 8, 0x50, 0xff]) }
}
