//! The number that include/hca.h promises for a call on a session's bytes.

use session::abi;
use session::ffi::Reader;
use session::{Outcome, Question, Undo};
use world::registers::RESERVED;
use world::PAGE;

use super::made::Made;
use super::pool::Stop;
use super::Function;
use crate::sessions::answers;

pub fn number(made: &Made, stop: &Stop) -> u32 {
    let room = made.state.len() >= abi::STATE;
    match made.function {
        Function::Fresh if room => 0,
        Function::PushUndo => pushed(made),
        Function::Answer if !known(made.told) => abi::WRONG,
        Function::Call if made.call.kind > abi::CLOSE => abi::WRONG,
        _ if !room => abi::SHORT,
        _ if !at_its_time(made, stop) => abi::WRONG,
        _ if !lent_well(made) => abi::SHORT,
        Function::Call => refused_call(made, stop),
        _ => 0,
    }
}

/// A kind of answer that there is, and a value that it can have.
fn known([kind, a, _]: [u64; 3]) -> bool {
    match u32::try_from(kind).unwrap_or(0) {
        abi::WORD => a < 1 << 16,
        abi::DWORD => a < 1 << 32,
        kind => (abi::QWORD..=abi::LIST).contains(&kind),
    }
}

fn at_its_time(made: &Made, stop: &Stop) -> bool {
    let (question, outcome) =
        if made.fresh() { (Question::Finished, Outcome::Fresh) } else { (stop.question, stop.outcome) };
    match made.function {
        Function::Call if made.call.kind == abi::OPEN => outcome == Outcome::Fresh,
        Function::Call | Function::Read(Reader::Setup) => outcome.is_open(),
        Function::Answer => answers::suits(question, made.told[0] as u32),
        _ => true,
    }
}

fn lent_well(made: &Made) -> bool {
    let out = made.out.len() >= made.function.out_bytes();
    if let Function::Read(_) = made.function {
        return out;
    }
    let boxes = made.inbox.len() == abi::MAILBOX && made.outbox.len() == abi::MAILBOX;
    let list = made.count <= abi::UNDO_RECORDS.min(made.undo.len());
    let looked_at = made.function == Function::Call && has_input(made.call.kind);
    out && boxes && list && (!looked_at || made.input.len() <= abi::MAILBOX)
}

fn has_input(kind: u32) -> bool {
    [abi::WITH_IN, abi::IN_IMM, abi::IN_OUT].contains(&kind)
}

fn reserved(op: u16) -> bool {
    op > 0xfff || RESERVED.contains(&op)
}

/// A call at its time, with slices that are long enough.
fn refused_call(made: &Made, stop: &Stop) -> u32 {
    let call = &made.call;
    match call.kind {
        abi::IMM..=abi::IN_OUT if reserved(call.op) => abi::RESERVED,
        abi::UNDO_TO if wanted(made).iter().any(|u| reserved(u.op)) => abi::RESERVED,
        abi::LEND if stop.lent == abi::LENT_BUFFERS => abi::FULL,
        abi::LEND if call.value > u64::MAX - PAGE + 1 => abi::BYTES,
        _ => 0,
    }
}

/// The records that an `undo_to` wants.
fn wanted(made: &Made) -> &[Undo] {
    let mark = usize::try_from(made.call.value).unwrap_or(usize::MAX).min(made.count);
    &made.undo.now()[mark..made.count]
}

fn pushed(made: &Made) -> u32 {
    let records = made.undo.len();
    match made.count {
        n if n > abi::UNDO_RECORDS || records < abi::UNDO_RECORDS.min(n + 1) => abi::SHORT,
        _ if reserved(made.call.op) => abi::RESERVED,
        abi::UNDO_RECORDS => abi::FULL,
        _ => 0,
    }
}
