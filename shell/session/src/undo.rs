//! The caller's undo list.

use crate::ffi;
use crate::session::{taken, Refused};

/// A command that takes an object back, as `hca_undo` of include/hca.h.
#[repr(C)]
#[derive(Clone, Copy, PartialEq, Eq, Debug, Default)]
pub struct Undo {
    /// The opcode.
    pub op: u16,
    /// The opcode modifier.
    pub op_mod: u8,
    /// The input modifier.
    pub in_mod: u32,
    /// The immediate in.
    pub in_param: u64,
}

/// The commands that take back what was made on the open session, oldest first, in a slice that the caller lends;
/// `abi::UNDO_RECORDS` are the most that can stand there. `undo_to`, `quiesce` and a closing send the newest first, and each is
/// off the list before it is sent: the list keeps the count that the turn before has left, so that no record is sent twice. The
/// caller may change the list between any two turns of a call: the newest record is taken as it stands then. Records found
/// on it when an opening fails are sent by that opening's closing.
#[derive(PartialEq, Eq, Debug)]
pub struct UndoList<'a> {
    records: &'a mut [Undo],
    count: usize,
}

impl<'a> UndoList<'a> {
    /// No records yet; a slice of none is as good as any for a caller who makes no objects.
    pub fn new(records: &'a mut [Undo]) -> UndoList<'a> {
        UndoList { records, count: 0 }
    }

    /// The first so many are on the list, no more than there are. With more than `abi::UNDO_RECORDS` no call takes it.
    pub fn holding(records: &'a mut [Undo], count: usize) -> UndoList<'a> {
        let count = count.min(records.len());
        UndoList { records, count }
    }

    /// Puts a record on. `Refused::Short` where the slice has no place for it, `Refused::Reserved` where no client may send
    /// its opcode, `Refused::Full` behind the 256th, in this order; a full list asks for no place.
    pub fn push(&mut self, record: Undo) -> Result<(), Refused> {
        taken(ffi::push_undo(self.records, self.count, record))?;
        self.count += 1;
        Ok(())
    }

    /// Where the list stands, for `Call::UndoTo`.
    pub fn mark(&self) -> usize {
        self.count
    }

    /// How many records are on the list.
    #[inline]
    pub fn len(&self) -> usize {
        self.count
    }

    /// No record is on the list.
    pub fn is_empty(&self) -> bool {
        self.count == 0
    }

    /// Leaves the oldest ones.
    #[inline]
    pub fn truncate(&mut self, count: usize) {
        self.count = self.count.min(count);
    }

    /// The records, oldest first.
    pub fn records(&self) -> &[Undo] {
        &self.records[..self.count]
    }

    /// The same, to be changed; what is written here is not looked at before its turn.
    pub fn records_mut(&mut self) -> &mut [Undo] {
        &mut self.records[..self.count]
    }

    /// All that is lent, with what stands behind the last record.
    #[inline]
    pub(crate) fn room(&self) -> &[Undo] {
        self.records
    }
}
