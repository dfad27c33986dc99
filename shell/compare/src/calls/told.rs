//! Calls and their results, from the world's words to the session's and back.

use session::{Outcome, Refused, Session};
use world::calls::{Call, Command, Form};
use world::results::{Done, Given, Refusal};

use crate::sessions::told::{buffer, closing, opened, values};

/// The session's call; none for a record that is pushed, which is the list's own.
pub fn call(c: &Call) -> Option<session::Call<'_>> {
    Some(match c {
        Call::Open => session::Call::Open,
        Call::Command(c) => command(c),
        Call::Lend { bytes } => session::Call::Lend { bytes: *bytes },
        Call::PushUndo(_) => return None,
        Call::UndoTo { mark } => session::Call::UndoTo { mark: *mark as usize },
        Call::Quiesce => session::Call::Quiesce,
        Call::Close => session::Call::Close,
    })
}

fn command(c: &Command) -> session::Call<'_> {
    let (command, input) = (session::Command { op: c.op, op_mod: c.op_mod, in_mod: c.in_mod }, &c.input[..]);
    match c.form {
        Form::Imm => session::Call::Imm { command, in_param: c.in_param },
        Form::WithIn => session::Call::WithIn { command, input },
        Form::WithOut => session::Call::WithOut { command },
        Form::InImm => session::Call::InImm { command, input },
        Form::InOut => session::Call::InOut { command, input },
    }
}

/// The number of what no call gives.
const UNKNOWN: u32 = u32::MAX;

/// The number of a call that was not taken.
fn number(r: Refused) -> u32 {
    match r {
        Refused::Bytes => 18,
        Refused::Full => 19,
        Refused::Wrong => 20,
        Refused::Short => 21,
        Refused::Reserved => 22,
        Refused::Unknown => UNKNOWN,
    }
}

/// A call that was not taken.
pub fn refused(r: Refused) -> Refusal {
    Refusal::new(number(r), &[])
}

/// What a call gave.
pub fn given(call: &Call, outcome: Result<Outcome, Refused>, session: &Session) -> Result<Given, Refusal> {
    let plain = |r: session::Refusal| Refusal::new(r.number(), &values(r));
    match (outcome.map_err(refused)?, call) {
        (Outcome::Failed(r, c), _) => Err(Refusal { closing: Some(closing(c)), ..plain(r) }),
        (Outcome::CallFailed(r), _) => Err(plain(r)),
        (Outcome::Open, Call::Open) => Ok(Given::Opened(Box::new(opened(&session.setup().expect("open"))))),
        (Outcome::Open, _) => Ok(Given::Nothing),
        (Outcome::Closed(c), _) => Ok(Given::Closed(closing(c))),
        (Outcome::Lent(b), _) => Ok(Given::Lent(buffer(b))),
        (Outcome::Done { immediate, us }, Call::Command(c)) => Ok(done(c.form, immediate, us, session)),
        _ => Err(Refusal::new(UNKNOWN, &[])),
    }
}

/// A good command. An immediate that the form has not must be 0.
fn done(form: Form, immediate: u64, us: u64, session: &Session) -> Given {
    let outbox = form.has_reply().then(|| session.outbox().to_vec());
    let immediate = (form.has_immediate() || immediate != 0).then_some(immediate);
    Given::Done(Done { immediate, outbox, us })
}
