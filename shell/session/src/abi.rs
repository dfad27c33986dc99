//! The numbers of include/hca.h.

/// The bytes of a session.
pub const STATE: usize = 5160;
/// The bytes of a mailbox.
pub const MAILBOX: usize = 4096;
/// The most records that can stand on an undo list.
pub const UNDO_RECORDS: usize = 256;
/// The most buffers that can be lent.
pub const LENT_BUFFERS: usize = 64;

// Why a call is not taken.
/// More than 2^64 - 4,096 bytes are to be lent.
pub const BYTES: u32 = 18;
/// No more buffers can be lent, or records stand on the list.
pub const FULL: u32 = 19;
/// A call at the wrong time or of no kind, an answer of the wrong kind, bytes that are no session.
pub const WRONG: u32 = 20;
/// A slice is too short, an input too long, or the undo list is none.
pub const SHORT: u32 = 21;
/// An opcode that no client may send.
pub const RESERVED: u32 = 22;

// How many bytes a call writes.
/// What `hca_call` and `hca_answer` write: a question, and how many undo records are left.
pub const TURN: usize = 40;
/// What `hca_question` writes.
pub const QUESTION: usize = 32;
/// What `hca_result` writes.
pub const RESULT: usize = 40;
/// What `hca_setup` writes.
pub const SETUP: usize = 1072;
/// What `hca_books` writes.
pub const BOOKS: usize = 2240;

// The kinds of calls.
/// `Call::Open`.
pub const OPEN: u32 = 0;
/// `Call::Imm`.
pub const IMM: u32 = 1;
/// `Call::WithIn`.
pub const WITH_IN: u32 = 2;
/// `Call::WithOut`.
pub const WITH_OUT: u32 = 3;
/// `Call::InImm`.
pub const IN_IMM: u32 = 4;
/// `Call::InOut`.
pub const IN_OUT: u32 = 5;
/// `Call::Lend`.
pub const LEND: u32 = 6;
/// `Call::UndoTo`.
pub const UNDO_TO: u32 = 7;
/// `Call::Quiesce`.
pub const QUIESCE: u32 = 8;
/// `Call::Close`.
pub const CLOSE: u32 = 9;

// The kinds of questions, as a word has them.
/// `Question::Finished`.
pub const FINISHED: u64 = 0;
/// `Question::ConfigRead16`.
pub const CONFIG_READ16: u64 = 1;
/// `Question::ConfigRead32`.
pub const CONFIG_READ32: u64 = 2;
/// `Question::ConfigWrite16`.
pub const CONFIG_WRITE16: u64 = 3;
/// `Question::ConfigWrite32`.
pub const CONFIG_WRITE32: u64 = 4;
/// `Question::RegisterRead`.
pub const REG_READ: u64 = 5;
/// `Question::RegisterWrite`.
pub const REG_WRITE: u64 = 6;
/// `Question::Attributes`.
pub const ATTRIBUTES: u64 = 7;
/// `Question::Resource`.
pub const RESOURCE: u64 = 8;
/// `Question::Stall`.
pub const STALL: u64 = 9;
/// `Question::Allocate`.
pub const ALLOCATE: u64 = 10;
/// `Question::Map`.
pub const MAP: u64 = 11;
/// `Question::Unmap`.
pub const UNMAP: u64 = 12;
/// `Question::Free`.
pub const FREE: u64 = 13;
/// `Question::Fence`.
pub const FENCE: u64 = 14;

// The kinds of answers.
/// `Answer::Word`.
pub const WORD: u32 = 1;
/// `Answer::Dword`.
pub const DWORD: u32 = 2;
/// `Answer::Qword`.
pub const QWORD: u32 = 3;
/// `Answer::Done`.
pub const DONE: u32 = 4;
/// `Answer::Failed`.
pub const FAILED: u32 = 5;
/// `Answer::Handle`.
pub const HANDLE: u32 = 6;
/// `Answer::Mapped`.
pub const MAPPED: u32 = 7;
/// `Answer::List`.
pub const LIST: u32 = 8;

/// Little-endian words of eight bytes.
pub struct Words<'a>(pub &'a [u8]);

impl Words<'_> {
    /// Word `k`; 0 behind the end.
    #[inline]
    pub fn at(&self, k: usize) -> u64 {
        let word = self.0.get(8 * k..8 * k + 8).and_then(|b| b.try_into().ok());
        word.map_or(0, u64::from_le_bytes)
    }

    /// Word `k` is not 0.
    pub fn flag(&self, k: usize) -> bool {
        self.at(k) != 0
    }
}

/// What a call says, as numbers: the kind of the question, its three values, and how many undo records are left.
pub type Turn = [u64; 5];
