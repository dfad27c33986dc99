//! What is run: chosen lists with one thing changed in turn, and lists by seed.

use world::calls::{self, Call, Command, Form, List};
use world::plan::{Behaviour, Fault, Later, Plan};
use world::prng::Prng;
use world::registers::{QUERY_DEV_CAP, QUERY_FW};
use world::results::Undo;

use crate::sessions::cases::{obedient, variants, ENDLESS};

/// A list of calls: the world's plan, what the world does from the good opening on, and the read of the status dword, counted
/// from there, that shows GO whatever the card shows.
#[derive(Clone, Debug)]
pub struct Case {
    pub name: String,
    pub plan: Plan,
    pub calls: Vec<Call>,
    pub later: Later,
    pub go_at: Option<u64>,
}

impl Case {
    pub fn new(name: impl Into<String>, plan: Plan, calls: Vec<Call>) -> Case {
        Case { name: name.into(), plan, calls, later: Later::default(), go_at: None }
    }

    fn named(&self, more: impl std::fmt::Display) -> Case {
        Case { name: format!("{}, {more}", self.name), ..self.clone() }
    }

    /// One bus call behind the opening is reported failed.
    pub fn with_fault(&self, call: u64, taken: bool) -> Case {
        let mut case = self.named(format!("call {call} fails, {}", if taken { "taken" } else { "not taken" }));
        case.later.faults.push(Fault { call, taken });
        case
    }

    /// One command behind the opening ends so.
    pub fn with_command(&self, number: u64, behaviour: Behaviour) -> Case {
        let mut case = self.named(format!("command {number} {behaviour:?}"));
        case.later.commands.insert(0, (number, behaviour));
        case
    }

    /// One read of the status dword behind the opening shows GO.
    pub fn with_go(&self, read: u64) -> Case {
        Case { go_at: Some(read), ..self.named(format!("status read {read} shows GO")) }
    }
}

pub fn command(form: Form, op: u16, input: &[u8]) -> Call {
    let in_param = if form == Form::Imm { 0x1_0000_0002 } else { 0 };
    Call::Command(Command { form, op, op_mod: 0x81, in_mod: 0x0102_0304, in_param, input: input.to_vec() })
}

pub fn push(op: u16, in_mod: u32) -> Call {
    Call::PushUndo(Undo { op, op_mod: 0xff, in_mod, in_param: u64::MAX })
}

/// The calls between an opening and a close.
pub fn session(middle: &[Call]) -> Vec<Call> {
    [&[Call::Open], middle, &[Call::Close]].concat()
}

/// Every form, with inputs that are short, whole and none, and queries of bring-up among them.
fn forms() -> Vec<Call> {
    let whole: Vec<u8> = (0..4096u32).map(|i| (i % 251) as u8 | 1).collect();
    vec![
        command(Form::WithIn, 0x00a, &whole),
        command(Form::Imm, 0x012, &[]),
        command(Form::InImm, 0x013, &[1, 2, 3]),
        command(Form::WithOut, QUERY_DEV_CAP, &[]),
        command(Form::WithOut, 0x014, &[]),
        command(Form::InOut, 0x015, &whole[..300]),
        command(Form::InOut, QUERY_FW, &[]),
        command(Form::Imm, QUERY_FW, &[]),
    ]
}

fn lends() -> Vec<Call> {
    [0, 1, 4096, 4097, 12288].map(|bytes| Call::Lend { bytes }).to_vec()
}

/// Marks above, at and below the length.
fn undos() -> Vec<Call> {
    let to = |mark: u64| Call::UndoTo { mark };
    let first = [push(0x020, 1), push(0x021, 2), to(3), to(2), push(0x022, 3), to(1), to(1)];
    [&first[..], &[push(0x023, 4), push(QUERY_FW, 5), to(u64::MAX)]].concat()
}

/// A quiesce, and every call on the quiesced session.
fn quiesced() -> Vec<Call> {
    let before = [push(0x020, 1), Call::Lend { bytes: 1 }, Call::Quiesce];
    let behind = [push(0x021, 2), Call::UndoTo { mark: 0 }, Call::UndoTo { mark: 1 }, Call::Lend { bytes: 5000 }];
    [&before[..], &behind, &[command(Form::InOut, 0x015, &[7]), Call::Quiesce, command(Form::Imm, 0x016, &[])]].concat()
}

/// Some of everything.
fn mixed() -> Vec<Call> {
    let mut all = vec![push(0x020, 1), command(Form::InOut, 0x015, &[1]), Call::Lend { bytes: 8192 }];
    all.extend([push(0x021, 2), Call::UndoTo { mark: 1 }, command(Form::WithOut, 0x014, &[])]);
    all.extend([push(0x022, 3), command(Form::InImm, 0x013, &[2; 64])]);
    all
}

/// The lists that are changed in turn.
pub fn chosen() -> Vec<Case> {
    let of = |name: &str, middle: Vec<Call>| Case::new(name, obedient(), session(&middle));
    let mut open = of("left open", mixed());
    open.calls.pop();
    let other = |n: usize| Case::new(variants()[n].name.clone(), variants()[n].plan.clone(), session(&mixed()));
    vec![
        of("forms", forms()),
        of("lendings", lends()),
        of("undo", undos()),
        of("quiesce", quiesced()),
        of("mixed", mixed()),
        other(2),
        other(3),
        open,
    ]
}

/// Commands that never end, and what is called behind them.
pub fn endless() -> Vec<Case> {
    let first = |form: Form| {
        let behind = [command(Form::InOut, 0x015, &[9]), Call::Lend { bytes: 1 }, push(0x020, 1)];
        let calls = [&[command(form, 0x012, &[5])], &behind[..], &[Call::UndoTo { mark: 0 }]].concat();
        Case::new(format!("{form:?}"), obedient(), session(&calls)).with_command(0, ENDLESS)
    };
    let mut all: Vec<Case> = Form::ALL.map(first).to_vec();
    let undo = Case::new("undo", obedient(), session(&[push(0x020, 1), push(0x021, 2), Call::UndoTo { mark: 0 }]));
    all.push(undo.with_command(1, ENDLESS));
    let quiesce = Case::new("quiesce", obedient(), session(&[Call::Quiesce, command(Form::Imm, 0x012, &[])]));
    all.extend([0, 3].map(|n| quiesce.with_command(n, ENDLESS)));
    // The card ends it at a read of a later call, and takes the next command.
    let late = [command(Form::WithOut, 0x014, &[]), command(Form::Imm, 0x012, &[]), command(Form::Imm, 0x012, &[])];
    let late = [&late[..], &[command(Form::InOut, 0x015, &[9])]].concat();
    all.push(Case::new("late", obedient(), session(&late)).with_command(0, Behaviour::after(600_992)));
    all
}

/// The list of a seed: the world's plan of that seed, in three of four on a good day.
pub fn seeded(seed: u64) -> Case {
    let mut r = Prng::new(seed ^ 0x6c69_7374);
    let plan = Plan::seeded(seed);
    let plan = if r.one_in(4) { plan } else { plan.calm() };
    let List { calls, later } = calls::seeded(seed);
    let go_at = r.one_in(16).then(|| r.below(60));
    Case { name: format!("seed {seed}"), plan, calls, later, go_at }
}
