//! The stored lists of calls: their form is enough to run them again.

use std::fmt::Write;

use compare::calls::sample::{cases, sample};
use compare::calls::stored::{checksum, mixed};
use session::abi::{self, Words};
use session::ffi::{self, Called, Reader, Told};
use session::{Question, Session, Undo};

/// The first kinds of what is no call: a record that is pushed, an answer, one that is given again, an outbox, a list.
const PUSH: u8 = 10;
const ANSWER: u8 = 16;
const AGAIN: u8 = 32;
const OUTBOX: u8 = 48;
const LIST: u8 = 49;

/// An item of the input.
struct Item<'a> {
    kind: u8,
    a: u64,
    b: u64,
    bytes: &'a [u8],
}

impl<'a> Item<'a> {
    /// A call, or a record that is pushed.
    fn called(&self) -> Called<'a> {
        let (op, op_mod, in_mod) = ((self.a >> 40) as u16, (self.a >> 32) as u8, self.a as u32);
        Called { kind: self.kind.into(), op, op_mod, in_mod, value: self.b, input: self.bytes }
    }

    fn told(&self) -> Told<'a> {
        Told { kind: (self.kind - ANSWER).into(), a: self.a, b: self.b, resource: self.bytes }
    }
}

/// The bytes of the input that were not read yet.
struct Items<'a>(&'a [u8]);

impl<'a> Items<'a> {
    fn take(&mut self, n: usize) -> &'a [u8] {
        let (now, behind) = self.0.split_at(n);
        self.0 = behind;
        now
    }

    fn number(&mut self, n: usize) -> u64 {
        self.take(n).iter().fold(0, |v, b| v << 8 | u64::from(*b))
    }
}

impl<'a> Iterator for Items<'a> {
    type Item = Item<'a>;

    fn next(&mut self) -> Option<Item<'a>> {
        if self.0.is_empty() {
            return None;
        }
        let (kind, a, b, n) = (self.number(1) as u8, self.number(8), self.number(8), self.number(2) as usize);
        Some(Item { kind, a, b, bytes: self.take(n) })
    }
}

/// A question's line.
fn line(q: Question) -> String {
    match q {
        Question::ConfigRead16 { offset } => format!("config_read16 {offset:x}"),
        Question::ConfigRead32 { offset } => format!("config_read32 {offset:x}"),
        Question::ConfigWrite16 { offset, value } => format!("config_write16 {offset:x} {value:x}"),
        Question::ConfigWrite32 { offset, value } => format!("config_write32 {offset:x} {value:x}"),
        Question::RegisterRead { bar, offset } => format!("reg_read {bar:x} {offset:x}"),
        Question::RegisterWrite { bar, offset, value } => format!("reg_write {bar:x} {offset:x} {value:x}"),
        Question::Attributes { call, value } => format!("attributes {:x} {value:x}", call.number()),
        Question::Resource { bar } => format!("resource {bar:x}"),
        Question::Stall { us } => format!("stall {us:x}"),
        Question::Allocate { pages } => format!("allocate {pages:x}"),
        Question::Map { handle, bytes } => format!("map {handle:x} {bytes:x}"),
        Question::Unmap { handle } => format!("unmap {handle:x}"),
        Question::Free { handle, pages } => format!("free {handle:x} {pages:x}"),
        Question::Fence | Question::Finished => panic!("no line"),
    }
}

/// Sessions on stored answers, over the functions of include/hca.h.
struct Replay {
    state: Vec<u8>,
    inbox: Vec<u8>,
    outbox: Vec<u8>,
    /// The question that is open, and the count of records, as they were written last.
    out: [u8; 40],
    undo: [Undo; abi::UNDO_RECORDS],
    count: usize,
    /// The kind of the call that is made.
    kind: u32,
    text: String,
}

impl Replay {
    fn new() -> Replay {
        Replay {
            state: Vec::new(),
            inbox: Vec::new(),
            outbox: Vec::new(),
            out: [0; 40],
            undo: [Undo::default(); abi::UNDO_RECORDS],
            count: 0,
            kind: abi::OPEN,
            text: String::new(),
        }
    }

    fn item(&mut self, i: &Item) {
        match i.kind {
            0..PUSH => self.called(i.called()),
            PUSH => self.push(i.called()),
            ANSWER..AGAIN => self.answered(i.told()),
            AGAIN..OUTBOX => self.again((i.kind - AGAIN).into(), i.a, i.b),
            OUTBOX => self.filled(i.bytes),
            LIST => self.list(),
            kind => panic!("an item of kind {kind}"),
        }
    }

    /// A list begins.
    fn list(&mut self) {
        self.finished();
        self.state = Session::new().state().to_vec();
        self.inbox = vec![0xa5; abi::MAILBOX];
        self.outbox = vec![0xa5; abi::MAILBOX];
        self.count = 0;
        self.text.push_str("list\n");
    }

    /// No question is open: every one had its answer.
    fn finished(&self) {
        assert_eq!(self.question(), Question::Finished, "a question without an answer");
    }

    fn question(&self) -> Question {
        Question::of(&Words(&self.out)).expect("a question")
    }

    /// A call of the library, which must be taken.
    fn turn(&mut self, call: impl FnOnce(ffi::Lent) -> u32) {
        let Replay { state, inbox, outbox, out, undo, count, text, .. } = self;
        let lent = ffi::Lent { state, inbox, outbox, undo, count: *count, out };
        assert_eq!(call(lent), 0, "the call is taken, behind\n{}", text.lines().last().unwrap_or_default());
        self.count = Words(&self.out).at(4) as usize;
    }

    /// Writes the question that is open; where there is none, what the call came to.
    fn asked(&mut self) {
        match self.question() {
            Question::Finished => self.told(),
            Question::Fence => self.row("fence", &[checksum(&self.inbox)]),
            q => {
                let _ = writeln!(self.text, "{}", line(q));
            }
        }
    }

    fn answered(&mut self, told: Told) {
        self.turn(|l| ffi::answer(l, told));
        self.asked();
    }

    /// A value and done, so many times; the questions that they led to are in the checksum.
    fn again(&mut self, kind: u32, times: u64, value: u64) {
        let told = |kind: u32, a: u64| Told { kind, a, b: 0, resource: &[] };
        let mut sum = 0;
        for _ in 0..times {
            for answer in [told(kind, value), told(abi::DONE, 0)] {
                self.turn(|l| ffi::answer(l, answer));
                sum = (0..4).fold(sum, |sum, k| mixed(sum, Words(&self.out).at(k)));
            }
        }
        self.row("times", &[times, sum]);
    }

    /// The outbox as the device has it, before the fence that shows it is answered.
    fn filled(&mut self, bytes: &[u8]) {
        assert_eq!(self.question(), Question::Fence, "an outbox that nobody looks at");
        self.outbox.fill(0);
        self.outbox[..bytes.len()].copy_from_slice(bytes);
    }

    fn row(&mut self, name: &str, words: &[u64]) {
        let words: Vec<String> = words.iter().map(|w| format!("{w:x}")).collect();
        let _ = writeln!(self.text, "{name} {}", words.join(" "));
    }

    fn read(&self, which: Reader, words: usize) -> Vec<u64> {
        let mut out = vec![0; 8 * words];
        assert_eq!(ffi::read(which, &self.state, &mut out), 0, "{which:?}");
        (0..words).map(|k| Words(&out).at(k)).collect()
    }

    fn opened(&mut self) {
        let s = self.read(Reader::Setup, 134);
        let asked = s[74] as usize;
        self.row("uar", &s[..3]);
        self.row("func", &s[4..8]);
        self.row("caps", &s[8..21]);
        self.row("flags", &s[22..40]);
        (0..asked).for_each(|p| self.row("port", &s[40 + 17 * p..57 + 17 * p]));
        self.row("layout", &s[74..78]);
        (0..11).for_each(|t| self.row("table", &s[78 + 5 * t..83 + 5 * t]));
        self.row("compared", &s[133..]);
    }

    fn books(&mut self) {
        let b = self.read(Reader::Books, 280);
        self.row("books", &b[..5]);
        self.row("broken", &b[6..11]);
        (0..b[1] as usize).for_each(|k| self.row("lent", &b[88 + 3 * k..91 + 3 * k]));
        self.row("undo", &[self.count as u64]);
    }

    /// What a call came to.
    fn told(&mut self) {
        let r = self.read(Reader::Result, 5);
        self.row("gave", &r);
        let open = [2, 5, 6, 7].contains(&r[0]);
        if open && self.kind == abi::OPEN {
            self.opened();
        }
        if open {
            self.books();
        }
        let boxes = [checksum(&self.inbox), checksum(&self.outbox)];
        self.row("boxes", &boxes);
    }

    fn push(&mut self, c: Called) {
        self.row("call", &[c.kind.into()]);
        let record = Undo { op: c.op, op_mod: c.op_mod, in_mod: c.in_mod, in_param: c.value };
        assert_eq!(ffi::push_undo(&mut self.undo, self.count, record), 0, "a record that may be pushed");
        self.count += 1;
        self.row("undo", &[self.count as u64]);
    }

    fn called(&mut self, c: Called) {
        self.row("call", &[c.kind.into()]);
        self.kind = c.kind;
        self.turn(|l| ffi::call(l, c));
        self.asked();
    }
}

#[test]
fn the_stored_sessions_can_be_run_from_their_form() {
    let (stdin, stdout) = sample();
    assert!(stdin.len() < 900_000, "{} bytes", stdin.len());
    let cases = cases();
    let mut names = cases.iter().map(|c| &c.name);
    let mut replay = Replay::new();
    for item in Items(&stdin) {
        assert!(item.bytes.len() <= 4096, "an item that the program takes");
        if item.kind == LIST {
            println!("{}", names.next().expect("no more lists than cases"));
        }
        replay.item(&item);
    }
    replay.finished();
    assert_eq!(names.next(), None, "a list of each case");
    for (n, (rust, session)) in stdout.lines().zip(replay.text.lines()).enumerate() {
        assert_eq!(rust, session, "line {}", n + 1);
    }
    assert_eq!(stdout, replay.text);
}

/// Every kind of call, every end of an opening and of a close, and every refusal that the Rust has.
#[test]
fn every_end_is_stored() {
    let (_, stdout) = sample();
    let has = |start: &str| assert!(stdout.lines().any(|l| l.starts_with(start)), "{start}");
    (0..=10).for_each(|kind| has(&format!("call {kind:x}")));
    (1..=17).for_each(|n| has(&format!("gave 3 {n:x} ")));
    (0..3).for_each(|c| has(&format!("gave 4 0 0 0 {c:x}")));
    [2, 5, 6].iter().for_each(|r| has(&format!("gave {r} ")));
    [5, 6, 7, 8, 9, 23].iter().for_each(|n| has(&format!("gave 7 {n:x} ")));
    has("gave 3 7 3938700 0 2");
    has("gave 3 7 3938700 0 1");
    has("gave 7 7 3938700 0 0");
}

/// What the gate has stored is what the Rust does today.
#[test]
fn the_stored_sessions_are_the_rusts() {
    let root = concat!(env!("CARGO_MANIFEST_DIR"), "/../../crates/sessions");
    let (stdin, stdout) = sample();
    assert!(std::fs::read(format!("{root}/stdin")).expect("the stored input") == stdin);
    assert!(std::fs::read(format!("{root}/stdout")).expect("the stored output") == stdout.into_bytes());
}
