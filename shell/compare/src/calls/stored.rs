//! A list of calls as the gate has it stored: what the Rust was answered, and what it asked and came to.
//!
//! The input is a sequence of items, one behind the other. An item has a kind (8 bits), two values a and b (64 bits each), a
//! length n (16 bits), all big-endian, and n bytes, at most 4,096. What a kind does not look at is 0.
//!
//! ```text
//! 0 .. 9     a call of that kind of hca_call: a is the opcode times 2^40, plus the opcode modifier times 2^32, plus the
//!            input modifier; b is the value, and the bytes are the input
//! 10         hca_push_undo of a record: a as of a call, b its in parameter. It asks nothing
//! 16 + k     an answer of kind k of hca_answer: a and b are its values, and the bytes are the list
//! 32 + k     again: the answer of kind k, 1 or 2, with the value b, and then done, are given a times in turn
//! 48         the outbox as the device has it: the bytes, and zeros behind them. It stands before the answer of the fence
//!            behind the read that shows a command done which names the outbox
//! 49         a list begins: a fresh session, every byte of both mailboxes 0xa5, no record on the undo list
//! ```
//!
//! Every question has its answer, fences too. The Rust's run does not show these; they stand by rule, directly before each
//! write of the command dword, and directly behind each read of it that shows the posted command done.
//!
//! The output has hexadecimal numbers. Each question is a line when it is asked, as of the program `machines`; that of a fence
//! is `fence S`, with the checksum of the inbox. The checksum of bytes begins with 0 and goes on by s times 257, plus the
//! byte, modulo 2^64.
//!
//! A read and a stall that come again and again are written once, and behind them the read, and `times M S`: from that read
//! on M pairs of answers were given by one item. S is the checksum of the 2 M questions that they led to (a stall, a read, and
//! so on), its numbers the four words that hca_question has for each. These have no lines of their own; the last of them, a
//! read, is open then. Where the same read stands behind the last stall, it is that one; else it is the last read of the pairs,
//! and it and its stall have their own answers.
//!
//! ```text
//! list                  a list begins
//! call K                before the questions of each call: its kind
//! gave R A B C D        behind them: the words of hca_result
//! uar .. compared       behind a good opening, what it has found out, as the words of hca_setup: 0 to 2 of `uar`, 4 to 7
//!                       of `func`, 8 to 20 of `caps`, 22 to 39 of `flags`, 17 of each port that was asked about, 74 to 77
//!                       of `layout`, five of each `table` in the order of their bases, and 133 of `compared`
//! books, broken         where the session is open, words 0 to 4 and 6 to 10 of hca_books
//! lent H A P            likewise each lent buffer: its three words
//! undo N                likewise how many records are on the list
//! boxes I O             the checksums of inbox and outbox
//! ```
//!
//! Behind a call of the kind 10 there is the line `undo` alone. Where a call or an answer is refused, `refused N` has the
//! number; no such line is expected.

use std::fmt::Write;

use session::abi;
use world::bus::Mapping;
use world::calls::{Call, Command, Form};
use world::registers::{BAR_DCS, GO_WRITE};
use world::results::{Closing, Done, Given, Opened, Refusal, State};
use world::trace::{Event, Trace};

use super::beside::{rust_noted, Step};
use super::cases::Case;
use crate::machines::records::{fold, of_event, turn, Record, Turn, Turns, DONE, DWORD, LIST as LISTED, WORD};
use crate::sessions::glimpse::Notes;

/// The kind of a record that is pushed.
const PUSH: u32 = 10;
/// What is added to the kind of an answer: those of `machines` begin with 0, those of hca_answer with 1.
const ANSWER: u64 = 16 + 1;
/// The same where it is given again.
const AGAIN: u64 = 32 + 1;
/// The kinds of an outbox, and of a list that begins.
const OUTBOX: u64 = 48;
const LIST: u64 = 49;

/// A checksum goes on by a number.
pub fn mixed(sum: u64, number: u64) -> u64 {
    sum.wrapping_mul(257).wrapping_add(number)
}

/// The checksum of bytes.
pub fn checksum(bytes: &[u8]) -> u64 {
    bytes.iter().fold(0, |s, b| mixed(s, u64::from(*b)))
}

/// An item's bytes.
fn item(kind: u64, a: u64, b: u64, bytes: &[u8]) -> Vec<u8> {
    assert!(bytes.len() <= abi::MAILBOX, "an item that the program takes");
    let kind = u8::try_from(kind).expect("8 bits");
    [&[kind][..], &a.to_be_bytes(), &b.to_be_bytes(), &(bytes.len() as u16).to_be_bytes(), bytes].concat()
}

/// The command dword is written.
fn posts(event: &Event) -> bool {
    matches!(event, Event::RegisterWrite { bar: BAR_DCS, offset: GO_WRITE, .. })
}

/// It is read.
fn reads(event: &Event) -> bool {
    matches!(event, Event::RegisterRead { bar: BAR_DCS, offset: GO_WRITE, .. })
}

/// Turns events into questions and answers, with the fences and the mailboxes where they belong.
struct Reader<'a> {
    notes: &'a Notes,
    posts: usize,
    reads: u64,
    /// Where the outbox is mapped, once it is; and how many buffers are.
    outbox: Option<u64>,
    maps: usize,
    /// The command that is posted names the outbox.
    names: bool,
    /// A command was just posted, or waited for: a read of the command dword is a poll, and not the first of a command.
    waits: bool,
}

impl Reader<'_> {
    fn turns(&mut self, trace: &Trace) -> Turns {
        let mut all: Turns = Vec::new();
        self.waits = false;
        for event in trace.events() {
            self.note(&event);
            all.extend(self.before(&event).map(|t| (t, 1)));
            let behind = self.behind(&event);
            self.waits = posts(&event) || matches!(event, Event::Stall { .. });
            let Some(new) = of_event(event) else {
                continue;
            };
            all.push((new, 1));
            fold(&mut all);
            all.extend(behind.into_iter().map(|t| (t, 1)));
        }
        all
    }

    /// The second buffer that is mapped is the outbox's.
    fn note(&mut self, event: &Event) {
        match event {
            Event::Map { answer: Some(Mapping { address, .. }), .. } => {
                self.maps += 1;
                self.outbox = if self.maps == 2 { Some(*address) } else { self.outbox };
            }
            Event::Post(post) => self.names = Some(post.out_param) == self.outbox,
            _ => {}
        }
    }

    /// The fence before the command dword is written.
    fn before(&mut self, event: &Event) -> Option<Turn> {
        posts(event).then(|| {
            self.posts += 1;
            self.fence()
        })
    }

    /// The fence behind the read that shows a command done, and before it the outbox, where the command names that.
    fn behind(&mut self, event: &Event) -> Vec<Turn> {
        if !reads(event) {
            return Vec::new();
        }
        self.reads += 1;
        let done = self.notes.done.iter().find(|(read, _)| self.waits && *read == self.reads - 1);
        let turns = |(_, bytes): &(u64, Vec<u8>)| {
            let outbox = self.names.then(|| outbox(bytes.clone()));
            outbox.into_iter().chain([self.fence()]).collect()
        };
        done.map_or(Vec::new(), turns)
    }

    /// A fence, with the inbox of the last command: it stays as it was posted until that has ended.
    fn fence(&self) -> Turn {
        turn(format!("fence {:x}", checksum(&self.notes.posted[self.posts - 1])), DONE, 0)
    }
}

fn outbox(mut bytes: Vec<u8>) -> Turn {
    bytes.truncate(bytes.iter().rposition(|b| *b != 0).map_or(0, |last| last + 1));
    Turn { list: bytes, ..turn(String::new(), OUTBOX, 0) }
}

/// An answer's item, or that of an outbox.
fn answer(t: &Turn) -> Vec<u8> {
    match t.kind {
        OUTBOX => item(OUTBOX, 0, 0, &t.list),
        LISTED => item(ANSWER + LISTED, 0, 0, &t.list),
        kind => item(ANSWER + kind, t.a, t.b, &[]),
    }
}

/// A call's item.
fn call(c: &Call) -> Vec<u8> {
    let kind = u64::from(kind(c));
    let command = |op: u16, op_mod: u8, in_mod: u32| u64::from(op) << 40 | u64::from(op_mod) << 32 | u64::from(in_mod);
    match c {
        Call::Command(Command { form, op, op_mod, in_mod, in_param, input }) => {
            let value = if *form == Form::Imm { *in_param } else { 0 };
            item(kind, command(*op, *op_mod, *in_mod), value, if form.has_input() { input } else { &[] })
        }
        Call::PushUndo(u) => item(kind, command(u.op, u.op_mod, u.in_mod), u.in_param, &[]),
        Call::Lend { bytes } => item(kind, 0, *bytes, &[]),
        Call::UndoTo { mark } => item(kind, 0, *mark, &[]),
        Call::Open | Call::Quiesce | Call::Close => item(kind, 0, 0, &[]),
    }
}

fn kind(c: &Call) -> u32 {
    match c {
        Call::Open => abi::OPEN,
        Call::Command(c) => match c.form {
            Form::Imm => abi::IMM,
            Form::WithIn => abi::WITH_IN,
            Form::WithOut => abi::WITH_OUT,
            Form::InImm => abi::IN_IMM,
            Form::InOut => abi::IN_OUT,
        },
        Call::Lend { .. } => abi::LEND,
        Call::PushUndo(_) => PUSH,
        Call::UndoTo { .. } => abi::UNDO_TO,
        Call::Quiesce => abi::QUIESCE,
        Call::Close => abi::CLOSE,
    }
}

/// The words of hca_question for a read or a stall: its kind, and the values, which its line has in their order.
fn words(line: &str) -> [u64; 4] {
    let mut parts = line.split(' ');
    let kind = match parts.next() {
        Some("config_read16") => 1,
        Some("config_read32") => 2,
        Some("reg_read") => 5,
        Some("stall") => 9,
        _ => panic!("{line}: no read and no stall"),
    };
    let mut value = || parts.next().map_or(0, |v| u64::from_str_radix(v, 16).expect("hexadecimal"));
    [kind, value(), value(), value()]
}

/// The checksum of the questions that so many pairs of answers lead to.
fn led_to(read: &Turn, stall: &Turn, pairs: u64) -> u64 {
    let two = [words(&stall.line), words(&read.line)].concat();
    (0..pairs).fold(0, |sum, _| two.iter().fold(sum, |sum, word| mixed(sum, *word)))
}

/// A list in the making.
struct Writer {
    input: Vec<u8>,
    output: String,
    /// The next question gets no line: `times` stands for it.
    covered: bool,
}

impl Writer {
    fn new() -> Writer {
        Writer { input: item(LIST, 0, 0, &[]), output: "list\n".into(), covered: false }
    }

    /// The questions of a call, and their answers.
    fn asked(&mut self, mut turns: &[(Turn, u64)]) {
        while let [(first, _), behind @ ..] = turns {
            turns = match behind {
                [(second, times), rest @ ..] if *times > 1 => {
                    self.pairs(first, second, *times, rest.first().map(|(t, _)| t));
                    rest
                }
                _ => {
                    self.one(first);
                    behind
                }
            };
        }
    }

    /// One question and its answer.
    fn one(&mut self, t: &Turn) {
        if t.kind != OUTBOX && !std::mem::take(&mut self.covered) {
            self.output += &[&t.line, "\n"].concat();
        }
        self.input.extend(answer(t));
    }

    /// A read and a stall, more than once; `next` is what is asked behind them.
    fn pairs(&mut self, read: &Turn, stall: &Turn, times: u64, next: Option<&Turn>) {
        let same = next.is_some_and(|n| n.line == read.line);
        let pairs = if same { times - 1 } else { times - 2 };
        self.one(read);
        self.one(stall);
        if pairs > 0 {
            self.again(read, stall, pairs);
        }
        if !same {
            self.one(read);
            self.one(stall);
        }
    }

    /// The answers of so many pairs by one item, from the read on that is open.
    fn again(&mut self, read: &Turn, stall: &Turn, pairs: u64) {
        assert!([WORD, DWORD].contains(&read.kind) && stall.kind == DONE, "{}: a value, and done", read.line);
        let _ = writeln!(self.output, "{}\ntimes {pairs:x} {:x}", read.line, led_to(read, stall, pairs));
        self.input.extend(item(AGAIN + read.kind, pairs, read.a, &[]));
        self.covered = true;
    }
}

fn closing(c: Closing) -> u64 {
    match c {
        Closing::Clean => 0,
        Closing::Reset => 1,
        Closing::Kept => 2,
    }
}

fn row(name: &str, words: &[u64]) -> String {
    let words: Vec<String> = words.iter().map(|w| format!("{w:x}")).collect();
    format!("{name} {}\n", words.join(" "))
}

fn caps(o: &Opened) -> String {
    let c = &o.cap;
    let known = u64::from(o.uar_size.is_none());
    let counts = [c.rsvd_qps, c.rsvd_srqs, c.rsvd_cqs, c.rsvd_eqs, c.max_eqs, c.rsvd_mtts, c.rsvd_mpts, c.rsvd_uars];
    let more = [c.rsvd_pds, c.num_sys_eqs, c.ports.into(), c.log_max_qp_wqes.into(), c.log_max_cqes.into()];
    let flags = [c.flags, c.flags2.into(), c.bmme.into(), c.eth_prot_ctrl.into(), c.eth_backpl_an_rep.into()];
    [
        row("uar", &[o.uar_bar.into(), known, o.uar_size.unwrap_or(0)]),
        row("func", &[c.rsvd_eqs, c.max_eqs, c.rsvd_uars, o.rev3.into()]),
        row("caps", &[&counts[..], &more].concat()),
        row("flags", &[&flags[..], &[c.uar_bytes, c.max_icm], &c.entry].concat()),
    ]
    .concat()
}

fn ports(o: &Opened) -> String {
    let port = |p: &world::results::Port| {
        let head = [p.num.into(), p.link_up.into(), p.b0.into(), p.mtu_cap.into(), p.log_macs.into()];
        let more = [p.autoneg.into(), p.an_complete.into(), p.speed.into(), p.xcvr.into(), p.wavelength.into()];
        let mac: Vec<u64> = p.mac.iter().map(|b| u64::from(*b)).collect();
        row("port", &[&head[..], &more, &[p.xcvr_code], &mac].concat())
    };
    o.ports.iter().map(port).collect()
}

fn tables(o: &Opened) -> String {
    let l = &o.layout;
    let mut order: Vec<usize> = (0..l.tables.len()).collect();
    order.sort_by_key(|i| l.tables[*i].base);
    let table = |i: usize| {
        let t = &l.tables[i];
        row("table", &[i as u64, t.entry, t.count, t.bytes, t.base])
    };
    let layout = row("layout", &[o.ports.len() as u64, l.total, l.base_sqpn, l.first_free_mtt]);
    let compared = row("compared", &[crate::order::of_layout(l)]);
    layout + &order.into_iter().map(table).collect::<String>() + &compared
}

fn books(s: &State) -> String {
    let (bar, offset) = s.catas.unwrap_or_default();
    let counts = [s.icm.len() as u64, s.lent.len() as u64, s.started.into(), s.original, s.toggle.into()];
    let more = [s.broken.into(), s.silent.into(), s.catas.is_none().into(), bar.into(), offset];
    let lent = s.lent.iter().map(|b| row("lent", &[b.handle.0, b.address, b.pages]));
    row("books", &counts) + &row("broken", &more) + &lent.collect::<String>()
}

/// The words of hca_result.
fn result(given: &Result<Given, Refusal>) -> [u64; 5] {
    match given {
        Ok(Given::Opened(_) | Given::Nothing) => [2, 0, 0, 0, 0],
        Ok(Given::Closed(c)) => [4, 0, 0, 0, closing(*c)],
        Ok(Given::Done(Done { immediate, us, .. })) => [5, immediate.unwrap_or(0), *us, 0, 0],
        Ok(Given::Lent(b)) => [6, b.handle.0, b.address, b.pages, 0],
        Err(r) => {
            let value = |i: usize| r.values.get(i).copied().unwrap_or(0);
            let (first, last) = r.closing.map_or((7, 0), |c| (3, closing(c)));
            [first, r.number.into(), value(0), value(1), last]
        }
    }
}

/// What a call came to.
fn told(c: &Call, step: &Step) -> String {
    let undo = step.state.as_ref().map_or(String::new(), |s| row("undo", &[s.undo.len() as u64]));
    if let Call::PushUndo(_) = c {
        return undo;
    }
    let opened = match &step.given {
        Ok(Given::Opened(o)) => [caps(o), ports(o), tables(o)].concat(),
        _ => String::new(),
    };
    let state = step.state.as_ref().map_or(String::new(), |s| books(s));
    let boxes = row("boxes", &[checksum(&step.inbox), checksum(&step.outbox)]);
    [row("gave", &result(&step.given)), opened, state, undo, boxes].concat()
}

/// A list as it is stored, from the Rust's run alone.
pub fn record(case: &Case) -> Record {
    let run = rust_noted(case).expect("inside the domain");
    let notes = run.notes.as_ref().expect("noted");
    let mut reader = Reader { notes, posts: 0, reads: 0, outbox: None, maps: 0, names: false, waits: false };
    let mut list = Writer::new();
    for (c, step) in case.calls.iter().zip(&run.ran.steps) {
        list.input.extend(call(c));
        list.output += &row("call", &[kind(c).into()]);
        list.asked(&reader.turns(&step.trace));
        list.output += &told(c, step);
    }
    Record { input: list.input, output: list.output }
}
