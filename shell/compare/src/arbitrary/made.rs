//! A call: what is lent to it, and its numbers.

use session::abi::{self, Words};
use session::{Question, Session, Undo};
use world::prng::Prng;
use world::registers::RESERVED;
use world::PAGE;

use crate::{image, lists};

use super::piece::{Piece, Records};
use super::pool::{Arguments, Bytes, Step, Stop};
use super::{Function, FUNCTIONS};

/// Where the state's bytes are from.
#[derive(Clone, Copy, PartialEq, Eq, Debug)]
enum Source {
    Stop,
    Fresh,
    Damaged,
    DamagedFresh,
    Garbage,
    Sparse,
    /// What a call on damaged bytes has left.
    Left,
}

#[derive(Debug)]
pub struct Made {
    pub function: Function,
    source: Source,
    pub state: Piece,
    pub inbox: Piece,
    pub outbox: Piece,
    /// What an answer is lent, or a call.
    pub resource: Piece,
    pub input: Piece,
    pub out: Piece,
    pub undo: Records,
    pub count: usize,
    /// A call, or the record that is pushed: its kind and its numbers.
    pub call: Arguments,
    /// An answer: its kind and two values.
    pub told: [u64; 3],
    /// The call is the wrapper's next one, or a reader, on the stop.
    pub wrappers: bool,
}

/// How slices are made: whether the lengths may be odd, whether there are guards, and what fills them.
#[derive(Clone, Copy)]
struct Way {
    odd: bool,
    guarded: bool,
    fill: u8,
}

impl Way {
    /// A slice that has mostly so many bytes.
    fn piece(self, r: &mut Prng, from: &[u8], usual: usize) -> Piece {
        let any = r.pick(&[0, 1, usual.saturating_sub(1), usual, usual + 1]);
        Piece::new(from, if self.odd && r.one_in(3) { any } else { usual }, self.guarded, self.fill)
    }

    /// All of these bytes.
    fn whole(self, from: &[u8]) -> Piece {
        Piece::new(from, from.len(), self.guarded, self.fill)
    }

    /// Undo records, and how many are on the list.
    fn list(self, r: &mut Prng) -> (Records, usize) {
        let length: usize = if self.odd { r.pick(&[0, 1, 2, 255, 256, 257, 300]) } else { r.pick(&[1, 256]) };
        let count = if self.odd {
            r.pick(&[0, 1, 2, length, length.saturating_sub(1), length + 1, 255, 256, 257, 1 << 32, usize::MAX])
        } else {
            r.pick(&[0, 1, length])
        };
        let records: Vec<Undo> = (0..length).map(|_| undo(r)).collect();
        (Piece::new(&records, length, self.guarded, undo(r)), count)
    }
}

impl Made {
    /// A call near this stop, or on what the last one has left.
    pub fn new(r: &mut Prng, stop: &Stop, left: Option<Bytes>) -> Made {
        let (source, state) = state(r, stop, left.as_ref().map(|l| l.state.clone()));
        let own = source == Source::Stop && r.one_in(4);
        let function = if own { own_function(r, stop) } else { function(r, stop) };
        let way = Way { odd: !own && r.one_in(3), guarded: r.one_in(2), fill: r.pick(&[0xc3, 0x5a]) };
        let bytes = left.as_ref().unwrap_or(&stop.bytes);
        let inbox = mailbox(r, &bytes.inbox, own);
        let outbox = mailbox(r, &bytes.outbox, own);
        let (resource, input) = (resource(r), input(r));
        let (undo, count) = way.list(r);
        let mut made = Made {
            function,
            source,
            state: way.piece(r, &state, abi::STATE),
            inbox: way.piece(r, &inbox, abi::MAILBOX),
            outbox: way.piece(r, &outbox, abi::MAILBOX),
            out: way.piece(r, &[], function.out_bytes()),
            resource: way.whole(&resource),
            input: way.whole(&input),
            undo,
            count,
            call: any_call(r, count),
            told: any_answer(r, stop),
            wrappers: own,
        };
        if own {
            made.take_over(stop, way);
        }
        made
    }

    /// The state's bytes are a session's, undamaged.
    pub fn whole(&self) -> bool {
        matches!(self.source, Source::Stop | Source::Fresh)
    }

    /// They are a fresh one's, not the stop's.
    pub fn fresh(&self) -> bool {
        self.source == Source::Fresh
    }

    /// The wrapper's own numbers and lists.
    fn take_over(&mut self, stop: &Stop, way: Way) {
        self.undo = Piece::new(&stop.undo, abi::UNDO_RECORDS, way.guarded, Undo::default());
        self.count = stop.undo.len();
        match &stop.next {
            Some((Step::Answer { told, resource }, ..)) => {
                self.told = *told;
                self.resource = way.whole(resource);
            }
            Some((Step::Call { call, input }, ..)) => {
                self.call = call.clone();
                self.input = way.whole(input);
            }
            None => {}
        }
    }

    /// The record that is pushed.
    pub fn record(&self) -> Undo {
        let Arguments { op, op_mod, in_mod, value, .. } = self.call;
        Undo { op, op_mod, in_mod, in_param: value }
    }

    /// Whether everything else is as it was; what is not.
    pub fn untouched(&self, number: u32) -> Result<(), &'static str> {
        let taken = number == 0;
        let turns = taken && matches!(self.function, Function::Call | Function::Answer);
        let state = if turns || taken && self.function == Function::Fresh { abi::STATE } else { 0 };
        let mailbox = if turns { abi::MAILBOX } else { 0 };
        let out = if taken { self.function.out_bytes() } else { 0 };
        let kept = [
            (&self.state, state, "state"),
            (&self.inbox, mailbox, "inbox"),
            (&self.outbox, mailbox, "outbox"),
            (&self.out, out, "out"),
            (&self.resource, 0, "resource"),
            (&self.input, 0, "input"),
        ];
        kept.iter().find(|(p, written, _)| !p.kept_but(*written)).map_or(Ok(()), |(_, _, what)| Err(*what))?;
        self.list_kept(taken)
    }

    /// The undo list is as it was, but for the record that was pushed.
    fn list_kept(&self, taken: bool) -> Result<(), &'static str> {
        if !taken || self.function != Function::PushUndo {
            return if self.undo.kept_but(0) { Ok(()) } else { Err("undo") };
        }
        let there = self.undo.now().get(self.count) == Some(&self.record());
        if there && self.undo.kept_but_from(self.count, 1) {
            Ok(())
        } else {
            Err("undo, and not the record alone")
        }
    }

    /// Holds a call that is the wrapper's to what it had behind it; what differs.
    pub fn same(&self, stop: &Stop) -> Result<(), &'static str> {
        if let Function::Read(which) = self.function {
            let (_, _, words) = stop.reads.iter().find(|(w, ..)| *w == which).expect("one of them");
            return if self.out.now() == words { Ok(()) } else { Err("what is read") };
        }
        let Some((_, bytes, question, left)) = &stop.next else {
            return Err("a call behind the last one");
        };
        let words = Words(self.out.now());
        match () {
            _ if self.state.now() != bytes.state => Err("the state"),
            _ if self.inbox.now() != bytes.inbox => Err("the inbox"),
            _ if self.outbox.now() != bytes.outbox => Err("the outbox"),
            _ if Question::of(&words) != Some(*question) => Err("the question"),
            _ if words.at(4) != *left as u64 => Err("the number of undo records"),
            _ => Ok(()),
        }
    }

    /// What a call that was taken on damaged bytes has left, to be called again.
    pub fn left(&self, number: u32) -> Option<Bytes> {
        let again = number == 0 && !self.whole() && matches!(self.function, Function::Call | Function::Answer);
        let of = |p: &Piece| p.now().to_vec();
        again.then(|| Bytes { state: of(&self.state), inbox: of(&self.inbox), outbox: of(&self.outbox) })
    }
}

/// Mostly what can be taken: an answer at a question, a call at rest.
fn function(r: &mut Prng, stop: &Stop) -> Function {
    let suits = if stop.question == Question::Finished { Function::Call } else { Function::Answer };
    match r.below(8) {
        0..4 => suits,
        _ => r.pick(&FUNCTIONS).0,
    }
}

/// The wrapper's next call, or a reader that is not refused.
fn own_function(r: &mut Prng, stop: &Stop) -> Function {
    let next = stop.next.as_ref().map(|(step, ..)| match step {
        Step::Call { .. } => Function::Call,
        Step::Answer { .. } => Function::Answer,
    });
    next.filter(|_| !r.one_in(4)).unwrap_or_else(|| Function::Read(r.pick(&stop.reads.each_ref().map(|(w, ..)| *w))))
}

fn state(r: &mut Prng, stop: &Stop, left: Option<Vec<u8>>) -> (Source, Vec<u8>) {
    if let Some(state) = left {
        return (Source::Left, state);
    }
    let fresh = || Session::new().state().to_vec();
    match r.below(20) {
        0..8 => (Source::Stop, stop.bytes.state.clone()),
        8 => (Source::Fresh, fresh()),
        9..16 => (Source::Damaged, damaged(r, stop.bytes.state.clone())),
        16 => (Source::DamagedFresh, damaged(r, fresh())),
        17 | 18 => (Source::Garbage, garbage(r, abi::STATE)),
        _ => (Source::Sparse, damaged(r, vec![0; abi::STATE])),
    }
}

fn garbage(r: &mut Prng, bytes: usize) -> Vec<u8> {
    (0..bytes / 8).flat_map(|_| r.next_u64().to_be_bytes()).collect()
}

/// What a mailbox holds: every fourth anything, unless it is the wrapper's own call.
fn mailbox(r: &mut Prng, from: &[u8], own: bool) -> Vec<u8> {
    if !own && r.one_in(4) {
        return garbage(r, abi::MAILBOX);
    }
    from.to_vec()
}

/// An opcode: mostly one that a command can have, now and then a reserved one or any.
fn opcode(r: &mut Prng) -> u16 {
    let any = r.next_u64() as u16;
    match r.below(16) {
        0 => r.pick(&RESERVED),
        1 => any,
        2 => 0x1000 | any & 0xfff,
        _ => any & 0xfff,
    }
}

/// An undo record; of a list of many all but a few can be sent.
fn undo(r: &mut Prng) -> Undo {
    let op = if r.one_in(64) { opcode(r) } else { 0x020 };
    Undo { op, op_mod: r.next_u64() as u8, in_mod: r.next_u64() as u32, in_param: r.next_u64() }
}

/// A call of any kind, and of unknown ones, with any numbers; marks around the length of the list.
fn any_call(r: &mut Prng, count: usize) -> Arguments {
    let kinds = [10, 11, 255, 256, 257, 0x8000_0001, 0xffff_fffe, 0xffff_ffff];
    let (any, n) = (r.next_u64(), count as u64);
    let few =
        [0, 1, PAGE, PAGE + 1, n, n.wrapping_sub(1), n / 2, 1 << 52, 0u64.wrapping_sub(PAGE), 1u64.wrapping_sub(PAGE)];
    Arguments {
        kind: if r.one_in(8) { r.pick(&kinds) } else { r.below(10) as u32 },
        op: opcode(r),
        op_mod: r.next_u64() as u8,
        in_mod: r.next_u64() as u32,
        value: if r.one_in(4) { r.pick(&[any, u64::MAX, any & 0xffff]) } else { r.pick(&few) },
    }
}

/// A client's input of any length, too long ones among them.
fn input(r: &mut Prng) -> Vec<u8> {
    let length = r.pick(&[0, 0, 1, 16, 300, 4095, 4096, 4097, 6000]);
    garbage(r, length + 8)[..length].to_vec()
}

/// Bits, bytes and whole words are changed, up to eight of them, the first words more often; or the books.
fn damaged(r: &mut Prng, mut state: Vec<u8>) -> Vec<u8> {
    for _ in 0..1 + r.below(8) {
        let words = r.pick(&[10, image::HEAD, image::WORDS]) as u64;
        let at = r.below(words) as usize * 8;
        let (any, small) = (r.next_u64(), r.below(24));
        let word = r.pick(&[0, 1, 2, small, small, 14, 15, 64, 65, 256, 257, 0xffff_ffff, 1 << 32, u64::MAX, any]);
        match r.below(4) {
            0 => state[at + r.below(8) as usize] ^= 1 << r.below(8),
            1 => state[at + r.below(8) as usize] = any as u8,
            2 => image::put(&mut state, at / 8, word),
            _ => image::damage_books(r, &mut state),
        }
        if r.one_in(2) {
            break;
        }
    }
    state
}

/// Mostly a kind that suits, with any values.
fn any_answer(r: &mut Prng, stop: &Stop) -> [u64; 3] {
    let any = r.next_u64();
    let mut value = || {
        let few = [0, 1, 0xffff, 1 << 16, 0x8000_0000, 0xffff_ffff, 1 << 32, PAGE, u64::MAX];
        let v = r.pick(&few);
        r.pick(&[v, any, any & 0xffff, any & 0xffff_ffff, any & !0xfff])
    };
    let (a, b) = (value(), value());
    let good = crate::sessions::answers::good(stop.question).filter(|_| !r.one_in(3));
    match good {
        Some(t) => [t.kind.into(), if r.one_in(2) { a & 0xffff } else { a }, if r.one_in(2) { t.b } else { b }],
        None => {
            let kinds = [9, 10, 20, 255, 256, 257, 0x8000_0001, 0xffff_fffe, 0xffff_ffff];
            let kind = if r.one_in(4) { r.pick(&kinds) } else { r.below(9) };
            [kind, a, b]
        }
    }
}

/// A resource list, or any bytes, some of them with the tag of one.
fn resource(r: &mut Prng) -> Vec<u8> {
    if r.one_in(2) {
        return lists::any(r);
    }
    let length = r.pick(&[0, 0, 1, 14, 45, 46, 47, 64, 400]);
    let mut list = r.bytes(length);
    if let Some(first) = list.first_mut().filter(|_| r.one_in(2)) {
        *first = 0x8a;
    }
    list
}
