//! Answers by the question that they suit.

use session::abi;
use session::ffi::Told;
use session::Question;
use world::PAGE;

pub fn told(kind: u32, a: u64, b: u64) -> Told<'static> {
    Told { kind, a, b, resource: &[] }
}

/// An answer that suits a question; none where it is no question.
pub fn good(q: Question) -> Option<Told<'static>> {
    Some(match q {
        Question::Finished => return None,
        Question::ConfigRead16 { .. } => told(abi::WORD, 1, 0),
        Question::ConfigRead32 { .. } | Question::RegisterRead { .. } => told(abi::DWORD, 1, 0),
        Question::Attributes { .. } => told(abi::QWORD, 1, 0),
        Question::Resource { .. } => told(abi::LIST, 0, 0),
        Question::Allocate { .. } => told(abi::HANDLE, 1, 0),
        Question::Map { bytes, .. } => told(abi::MAPPED, PAGE, bytes),
        _ => told(abi::DONE, 0, 0),
    })
}

/// Whether a kind of answer suits a question.
pub fn suits(q: Question, kind: u32) -> bool {
    let cannot_fail = matches!(q, Question::Stall { .. } | Question::Fence);
    good(q).is_some_and(|t| t.kind == kind || kind == abi::FAILED && !cannot_fail)
}
