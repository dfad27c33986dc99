//! Random and damaged calls of every function of include/hca.h.
//!
//! Checked at each: the number is 0 or one that the function has; a refused call has left every lent byte as it was; a call
//! that was taken has written within its slices alone, and what is only read is as it was. Where the bytes are a session that
//! the wrapper has led there, the number is what include/hca.h says, and where the call is also the wrapper's next one, every
//! byte is what the wrapper had behind it.
//!
//! `pool` has the sessions, `piece` a slice that is lent, `made` the calls, `expected` the number that a call must give.

mod expected;
mod made;
mod piece;
mod pool;

use std::fmt;

use session::abi;
use session::ffi::{self, Called, Lent, Reader, Told};
use world::prng::Prng;

use made::Made;
use pool::{Arguments, Pool, Stop};

/// The functions of include/hca.h.
#[derive(Clone, Copy, PartialEq, Eq, Debug)]
pub enum Function {
    Fresh,
    Call,
    Answer,
    PushUndo,
    Read(Reader),
}

pub const FUNCTIONS: [(Function, &str); 8] = [
    (Function::Fresh, "hca_fresh"),
    (Function::Call, "hca_call"),
    (Function::Answer, "hca_answer"),
    (Function::PushUndo, "hca_push_undo"),
    (Function::Read(Reader::Question), "hca_question"),
    (Function::Read(Reader::Result), "hca_result"),
    (Function::Read(Reader::Setup), "hca_setup"),
    (Function::Read(Reader::Books), "hca_books"),
];

impl Function {
    /// The bytes that a good call writes to `out`.
    pub fn out_bytes(self) -> usize {
        match self {
            Function::Fresh | Function::PushUndo => 0,
            Function::Call | Function::Answer => abi::TURN,
            Function::Read(Reader::Question) => abi::QUESTION,
            Function::Read(Reader::Result) => abi::RESULT,
            Function::Read(Reader::Setup) => abi::SETUP,
            Function::Read(Reader::Books) => abi::BOOKS,
        }
    }

    /// The numbers that it has.
    pub fn numbers(self) -> &'static [u32] {
        match self {
            Function::Fresh => &[0, 21],
            Function::Call => &[0, 18, 19, 20, 21, 22],
            Function::PushUndo => &[0, 19, 21, 22],
            Function::Answer | Function::Read(_) => &[0, 20, 21],
        }
    }
}

/// All numbers, in the order of the columns.
pub const NUMBERS: [u32; 6] = [0, 18, 19, 20, 21, 22];

/// What was counted.
#[derive(Clone, PartialEq, Eq, Debug, Default)]
pub struct Figures {
    /// By function: taken, then 18 to 22.
    pub given: [[u64; 6]; 8],
    /// The calls on bytes that the wrapper has led there, whose number was known.
    pub known: u64,
    /// The wrapper's own next calls, held to all that it had behind them.
    pub wrapper: u64,
    /// The calls on damaged bytes that were taken.
    pub damaged: u64,
}

impl Figures {
    pub fn sum(&self) -> [u64; 6] {
        self.given.iter().fold([0; 6], |sum, g| std::array::from_fn(|i| sum[i] + g[i]))
    }
}

impl fmt::Display for Figures {
    fn fmt(&self, f: &mut fmt::Formatter<'_>) -> fmt::Result {
        let line = |f: &mut fmt::Formatter<'_>, name: &str, given: [u64; 6]| {
            write!(f, "{name:<13} {:>10}", given.iter().sum::<u64>())?;
            given.iter().try_for_each(|n| write!(f, " {n:>10}"))?;
            writeln!(f)
        };
        write!(f, "{:<13} {:>10} {:>10}", "", "calls", "taken")?;
        NUMBERS[1..].iter().try_for_each(|n| write!(f, " {n:>10}"))?;
        writeln!(f)?;
        FUNCTIONS.iter().zip(self.given).try_for_each(|((_, name), given)| line(f, name, given))?;
        line(f, "all", self.sum())?;
        writeln!(f, "calls whose number was known: {}", self.known)?;
        writeln!(f, "of them the wrapper's own, with every byte known: {}", self.wrapper)?;
        write!(f, "calls taken on damaged bytes: {}", self.damaged)
    }
}

/// Makes so many calls; what was counted, or the first call that is not as it must be.
pub fn run(seed: u64, count: u64) -> Result<Figures, String> {
    let mut r = Prng::new(seed);
    let pool = Pool::new(&mut r);
    let mut figures = Figures::default();
    let mut left = None;
    for n in 0..count {
        let stop = pool.any(&mut r);
        let mut made = Made::new(&mut r, stop, left.take());
        let number = call(&mut made);
        check(&made, stop, number, &mut figures).map_err(|why| format!("call {n} of seed {seed}: {why}\n{made:?}"))?;
        left = made.left(number).filter(|_| r.one_in(2));
    }
    Ok(figures)
}

/// Makes the call.
fn call(made: &mut Made) -> u32 {
    let (function, count, record) = (made.function, made.count, made.record());
    let Made { state, inbox, outbox, out, resource, input, undo, call, told, .. } = made;
    match function {
        Function::Fresh => return ffi::fresh(state.lent()),
        Function::Read(which) => return ffi::read(which, state.lent(), out.lent()),
        Function::PushUndo => return ffi::push_undo(undo.lent(), count, record),
        Function::Call | Function::Answer => {}
    }
    let (state, inbox, outbox, out) = (state.lent(), inbox.lent(), outbox.lent(), out.lent());
    let lent = Lent { state, inbox, outbox, undo: undo.lent(), count, out };
    let Arguments { kind, op, op_mod, in_mod, value } = *call;
    let [answer, a, b] = *told;
    match function {
        Function::Call => ffi::call(lent, Called { kind, op, op_mod, in_mod, value, input: input.lent() }),
        _ => ffi::answer(lent, Told { kind: answer as u32, a, b, resource: resource.lent() }),
    }
}

/// Holds a call to what it must have done.
fn check(made: &Made, stop: &Stop, number: u32, figures: &mut Figures) -> Result<(), String> {
    let column = NUMBERS.iter().position(|n| *n == number && made.function.numbers().contains(n));
    let column = column.ok_or_else(|| format!("gives {number}"))?;
    let row = FUNCTIONS.iter().position(|(f, _)| *f == made.function).expect("one of them");
    figures.given[row][column] += 1;
    let own = !matches!(made.function, Function::Fresh | Function::PushUndo);
    figures.damaged += u64::from(number == 0 && !made.whole() && own);
    made.untouched(number).map_err(|what| format!("gives {number} and has written to {what}"))?;
    if made.whole() || made.function == Function::PushUndo {
        figures.known += 1;
        let must = expected::number(made, stop);
        if number != must {
            return Err(format!("gives {number}, not {must}"));
        }
    }
    if made.wrappers && number == 0 {
        figures.wrapper += 1;
        made.same(stop).map_err(|what| format!("{what} is not the wrapper's"))?;
    }
    Ok(())
}

#[cfg(test)]
mod tests {
    use super::*;

    /// A number other than the promised one, a byte written where none may be, and a state that is not the wrapper's.
    #[test]
    fn a_wrong_call_is_found() {
        let mut r = Prng::new(8);
        let pool = Pool::new(&mut r);
        let mut found = [0; 4];
        for _ in 0..3_000 {
            let stop = pool.any(&mut r);
            let mut made = Made::new(&mut r, stop, None);
            let number = call(&mut made);
            let wrong = |made: &Made, number: u32| check(made, stop, number, &mut Figures::default()).is_err();
            assert!(!wrong(&made, number));
            assert!(wrong(&made, 1) && wrong(&made, 23));
            if made.whole() {
                assert!(NUMBERS.into_iter().all(|n| wrong(&made, n) != (n == number)));
                found[0] += 1;
            }
            if made.wrappers && number == 0 {
                made.state.lent()[r.below(abi::STATE as u64) as usize] ^= 1;
                assert!(wrong(&made, number));
                found[1] += 1;
            }
            if let Some(last) = made.resource.lent().last_mut() {
                *last ^= 1;
                assert!(wrong(&made, number));
                found[2] += 1;
            } else if let Some(last) = made.undo.lent().last_mut() {
                last.in_param ^= 1;
                assert!(wrong(&made, number));
                found[3] += 1;
            }
        }
        assert!(found.iter().all(|n| *n > 200), "{found:?}");
    }
}
