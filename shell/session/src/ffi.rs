//! The functions of include/hca.h over slices of any length. All that is unsafe stands here; `c` has them as they are.
//!
//! The library is compiled for the System V calling convention, which on a UEFI target is not that of "C"; so it is named.
//!
//! The functions read and write the slices that they are lent, keep no pointer, and end on any bytes, lengths and
//! numbers; so each of these is safe to call, those of `c` apart.

use crate::abi;
use crate::undo::Undo;

/// The functions as include/hca.h has them: a pointer and a length for each slice.
pub mod c {
    extern "sysv64" {
        /// As include/hca.h has it.
        pub fn hca_fresh(state: *mut u8, state_bytes: usize) -> u32;
        /// As include/hca.h has it.
        pub fn hca_question(state: *const u8, state_bytes: usize, out: *mut u8, out_bytes: usize) -> u32;
        /// As include/hca.h has it.
        pub fn hca_result(state: *const u8, state_bytes: usize, out: *mut u8, out_bytes: usize) -> u32;
        /// As include/hca.h has it.
        pub fn hca_setup(state: *const u8, state_bytes: usize, out: *mut u8, out_bytes: usize) -> u32;
        /// As include/hca.h has it.
        pub fn hca_books(state: *const u8, state_bytes: usize, out: *mut u8, out_bytes: usize) -> u32;
        /// As include/hca.h has it.
        pub fn hca_call(
            state: *mut u8,
            state_bytes: usize,
            kind: u32,
            op: u16,
            op_mod: u8,
            in_mod: u32,
            value: u64,
            input: *const u8,
            input_bytes: usize,
            inbox: *mut u8,
            inbox_bytes: usize,
            outbox: *mut u8,
            outbox_bytes: usize,
            undo: *const super::Undo,
            undo_records: usize,
            count: usize,
            out: *mut u8,
            out_bytes: usize,
        ) -> u32;
        /// As include/hca.h has it.
        pub fn hca_answer(
            state: *mut u8,
            state_bytes: usize,
            kind: u32,
            a: u64,
            b: u64,
            resource: *const u8,
            resource_bytes: usize,
            inbox: *mut u8,
            inbox_bytes: usize,
            outbox: *mut u8,
            outbox_bytes: usize,
            undo: *const super::Undo,
            undo_records: usize,
            count: usize,
            out: *mut u8,
            out_bytes: usize,
        ) -> u32;
        /// As include/hca.h has it.
        pub fn hca_push_undo(
            undo: *mut super::Undo,
            undo_records: usize,
            count: usize,
            op: u16,
            op_mod: u8,
            in_mod: u32,
            in_param: u64,
        ) -> u32;
    }
}

/// What every call on a session is lent.
pub struct Lent<'a> {
    /// The session.
    pub state: &'a mut [u8],
    /// The mailbox that goes to the card.
    pub inbox: &'a mut [u8],
    /// The mailbox that comes back.
    pub outbox: &'a mut [u8],
    /// The undo list with all its places.
    pub undo: &'a [Undo],
    /// How many of these are on it.
    pub count: usize,
    /// Where the next question and the count of records go.
    pub out: &'a mut [u8],
}

/// A call as it crosses: its kind and its arguments, of which a kind looks at its own.
#[derive(Clone, Copy, PartialEq, Eq, Debug)]
pub struct Called<'a> {
    /// One of `abi::OPEN` to `abi::CLOSE`.
    pub kind: u32,
    /// A command's opcode.
    pub op: u16,
    /// A command's opcode modifier.
    pub op_mod: u8,
    /// A command's input modifier.
    pub in_mod: u32,
    /// The immediate in, the bytes to be lent, or the mark.
    pub value: u64,
    /// A command's input.
    pub input: &'a [u8],
}

impl Called<'static> {
    /// `Call::Open`.
    pub const OPEN: Called<'static> = Called::of(abi::OPEN, 0);
    /// `Call::Quiesce`.
    pub const QUIESCE: Called<'static> = Called::of(abi::QUIESCE, 0);
    /// `Call::Close`.
    pub const CLOSE: Called<'static> = Called::of(abi::CLOSE, 0);

    /// A call that is no command, and its number.
    pub const fn of(kind: u32, value: u64) -> Called<'static> {
        Called { kind, op: 0, op_mod: 0, in_mod: 0, value, input: &[] }
    }
}

/// An answer as it crosses: its kind, two values, and the bytes of a resource list.
#[derive(Clone, Copy, PartialEq, Eq, Debug)]
pub struct Told<'a> {
    /// One of `abi::WORD` to `abi::LIST`.
    pub kind: u32,
    /// Its first value.
    pub a: u64,
    /// Its second value.
    pub b: u64,
    /// The bytes of a resource list.
    pub resource: &'a [u8],
}

/// `hca_fresh`.
pub fn fresh(state: &mut [u8]) -> u32 {
    // SAFETY: one slice, lent as it is.
    unsafe { c::hca_fresh(state.as_mut_ptr(), state.len()) }
}

/// A function of a session, with its own arguments between the state and the rest of what it is lent.
macro_rules! on_session {
    ($function:path, $lent:expr, $($own:expr),*) => {{
        let Lent { state, inbox, outbox, undo, count, out } = $lent;
        // SAFETY: six slices, lent as they are; none overlaps a mutable one.
        unsafe {
            $function(
                state.as_mut_ptr(),
                state.len(),
                $($own,)*
                inbox.as_mut_ptr(),
                inbox.len(),
                outbox.as_mut_ptr(),
                outbox.len(),
                undo.as_ptr(),
                undo.len(),
                count,
                out.as_mut_ptr(),
                out.len(),
            )
        }
    }};
}

/// The words that a call writes, as the bytes that it is lent. The library is for a little-endian machine, as its words are.
#[inline]
pub fn bytes(turn: &mut abi::Turn) -> &mut [u8] {
    // SAFETY: numbers of eight bytes each, and any bytes are numbers.
    unsafe { core::slice::from_raw_parts_mut(turn.as_mut_ptr().cast(), abi::TURN) }
}

/// `hca_call`.
pub fn call(l: Lent, c: Called) -> u32 {
    let (input, bytes) = (c.input.as_ptr(), c.input.len());
    on_session!(c::hca_call, l, c.kind, c.op, c.op_mod, c.in_mod, c.value, input, bytes)
}

/// `hca_answer`.
#[inline]
pub fn answer(l: Lent, t: Told) -> u32 {
    on_session!(c::hca_answer, l, t.kind, t.a, t.b, t.resource.as_ptr(), t.resource.len())
}

/// `hca_push_undo`.
pub fn push_undo(undo: &mut [Undo], count: usize, u: Undo) -> u32 {
    // SAFETY: one slice, lent as it is.
    unsafe { c::hca_push_undo(undo.as_mut_ptr(), undo.len(), count, u.op, u.op_mod, u.in_mod, u.in_param) }
}

/// What is read of a session without changing it.
#[derive(Clone, Copy, PartialEq, Eq, Debug)]
pub enum Reader {
    /// `hca_question`.
    Question,
    /// `hca_result`.
    Result,
    /// `hca_setup`.
    Setup,
    /// `hca_books`.
    Books,
}

/// `hca_question`, `hca_result`, `hca_setup` or `hca_books`.
pub fn read(which: Reader, state: &[u8], out: &mut [u8]) -> u32 {
    let call = match which {
        Reader::Question => c::hca_question,
        Reader::Result => c::hca_result,
        Reader::Setup => c::hca_setup,
        Reader::Books => c::hca_books,
    };
    // SAFETY: two slices, lent as they are.
    unsafe { call(state.as_ptr(), state.len(), out.as_mut_ptr(), out.len()) }
}
