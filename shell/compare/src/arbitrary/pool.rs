//! Sessions stopped at random questions, with the wrapper's next step.

use session::abi::{self, UNDO_RECORDS};
use session::ffi::{self, Called, Reader};
use session::{Answer, Outcome, Question, Session, Undo, UndoList};
use world::calls::Call;
use world::plan::Later;
use world::prng::Prng;
use world::World;

use crate::calls::cases::{self, Case};
use crate::calls::told;
use crate::sessions::over::Over;
use crate::sessions::told::record;

/// The stops that are kept of a session.
const STOPS: usize = 32;
/// The sessions by seed, beside the chosen lists.
const SEEDS: u64 = 40;
/// A session is left after so many questions, most of which are polls then.
const QUESTIONS: usize = 20_000;

/// The bytes of a session.
#[derive(Clone)]
pub struct Bytes {
    pub state: Vec<u8>,
    pub inbox: Vec<u8>,
    pub outbox: Vec<u8>,
}

impl Bytes {
    fn of(s: &Session) -> Bytes {
        Bytes { state: s.state().to_vec(), inbox: s.inbox().to_vec(), outbox: s.outbox().to_vec() }
    }
}

/// A call's arguments.
#[derive(Clone, Debug)]
pub struct Arguments {
    pub kind: u32,
    pub op: u16,
    pub op_mod: u8,
    pub in_mod: u32,
    pub value: u64,
}

/// What the wrapper did next: a call, or the answer that it handed in.
#[derive(Clone)]
pub enum Step {
    Call { call: Arguments, input: Vec<u8> },
    Answer { told: [u64; 3], resource: Vec<u8> },
}

/// A session at a question, or at rest.
pub struct Stop {
    pub bytes: Bytes,
    pub question: Question,
    pub outcome: Outcome,
    /// How many buffers are lent.
    pub lent: usize,
    /// The undo records that are on the list.
    pub undo: Vec<Undo>,
    /// What the readers give: a number and words.
    pub reads: [(Reader, u32, Vec<u8>); 4],
    /// The next step, the bytes behind it, and the words of its turn: the question and the undo records left.
    pub next: Option<(Step, Bytes, Question, usize)>,
}

impl Stop {
    fn of(s: &Session, question: Question, undo: &UndoList) -> Stop {
        let read = |which: Reader, bytes: usize| {
            let mut out = vec![0; bytes];
            let number = ffi::read(which, s.state(), &mut out);
            (which, number, out)
        };
        Stop {
            bytes: Bytes::of(s),
            question,
            outcome: s.result().expect("a session"),
            lent: s.books().expect("a session").lent().len(),
            undo: undo.records().to_vec(),
            reads: [
                read(Reader::Question, abi::QUESTION),
                read(Reader::Result, abi::RESULT),
                read(Reader::Setup, abi::SETUP),
                read(Reader::Books, abi::BOOKS),
            ],
            next: None,
        }
    }
}

fn answered(answer: Answer) -> Step {
    let t = answer.told();
    Step::Answer { told: [t.kind.into(), t.a, t.b], resource: t.resource.to_vec() }
}

fn called(call: session::Call) -> Step {
    let Called { kind, op, op_mod, in_mod, value, input } = call.called();
    Step::Call { call: Arguments { kind, op, op_mod, in_mod, value }, input: input.to_vec() }
}

/// A session that is led on, and the stops that are kept of it.
struct Led<'a> {
    session: Box<Session>,
    undo: UndoList<'a>,
    bus: World,
    stops: Vec<Stop>,
    questions: usize,
    r: &'a mut Prng,
}

impl Led<'_> {
    /// The place among the stops that this one takes, so that each is as likely to be kept.
    fn place(&mut self) -> Option<usize> {
        self.questions += 1;
        let at = self.r.below(self.questions as u64) as usize;
        Some(if self.stops.len() < STOPS { self.stops.len() } else { at }).filter(|at| *at < STOPS)
    }

    fn keep(&mut self, at: usize, mut stop: Stop, step: Option<Step>, next: Question) {
        stop.next = step.map(|step| (step, Bytes::of(&self.session), next, self.undo.len()));
        match self.stops.get_mut(at) {
            Some(old) => *old = stop,
            None => self.stops.push(stop),
        }
    }

    /// Answers until none is open; false where it was left.
    fn on(&mut self, mut question: Question) -> bool {
        let mut list = [0; 64];
        while question != Question::Finished {
            if self.questions > QUESTIONS {
                return false;
            }
            let answer = self.session.ask(&mut Over::new(&mut self.bus), &mut list);
            // Behind the asking, since a fence has copied the outbox.
            let kept = self.place().map(|at| (at, Stop::of(&self.session, question, &self.undo)));
            question = self.session.answer(answer, &mut self.undo).expect("an answer that suits");
            if let Some((at, stop)) = kept {
                self.keep(at, stop, Some(answered(answer)), question);
            }
        }
        true
    }

    /// A session at rest, always kept; then one call.
    fn begin(&mut self, call: session::Call) -> bool {
        let stop = Stop::of(&self.session, Question::Finished, &self.undo);
        let first = self.session.begin(call, &mut self.undo).expect("a call at its time");
        self.keep(usize::MAX, stop, Some(called(call)), first);
        self.on(first)
    }

    /// One call of a list; false where nothing can follow.
    fn call(&mut self, call: &Call, later: &Later) -> bool {
        match (told::call(call), call) {
            (Some(c), _) if !self.begin(c) => return false,
            (None, Call::PushUndo(u)) => self.undo.push(record(u)).expect("room"),
            (None, _) => panic!("a call that is none"),
            _ => {}
        }
        let open = self.session.result().expect("a session").is_open();
        if open && *call == Call::Open {
            self.bus.schedule(later.clone());
        }
        open
    }

    fn lead(mut self, case: &Case) -> Vec<Stop> {
        for call in &case.calls {
            if !self.call(call, &case.later) {
                break;
            }
        }
        if self.session.result() != Ok(Outcome::Running) {
            let rest = Stop::of(&self.session, Question::Finished, &self.undo);
            self.keep(usize::MAX, rest, None, Question::Finished);
        }
        self.stops
    }
}

pub struct Pool {
    running: Vec<Stop>,
    /// At rest: no question is open.
    rest: Vec<Stop>,
}

impl Pool {
    /// The chosen lists, one that lends all that can be lent, and more by seed.
    pub fn new(r: &mut Prng) -> Pool {
        let mut all = cases::chosen();
        let mut full = all[1].clone();
        full.calls = vec![Call::Open];
        full.calls.extend((0..abi::LENT_BUFFERS).map(|_| Call::Lend { bytes: 1 }));
        all.push(full);
        all.extend((0..SEEDS).map(|_| cases::seeded(r.next_u64())));
        let mut stops = Vec::new();
        for case in all {
            let mut records = [Undo::default(); UNDO_RECORDS];
            let (bus, undo) = (World::new(case.plan.clone()), UndoList::new(&mut records));
            let led = Led { session: Box::default(), undo, bus, stops: Vec::new(), questions: 0, r };
            stops.extend(led.lead(&case));
        }
        let (rest, running) = stops.into_iter().partition(|s| s.question == Question::Finished);
        Pool { running, rest }
    }

    /// One of them, two of five at rest.
    pub fn any(&self, r: &mut Prng) -> &Stop {
        let all = if r.below(5) < 2 { &self.rest } else { &self.running };
        &all[r.below(all.len() as u64) as usize]
    }
}
