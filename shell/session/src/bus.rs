//! What a loader does for a session, one method for each kind of question.

use crate::abi::MAILBOX;
use crate::question::{Attribute, Mapping};

/// A mailbox as it is lent to every call.
pub type Mailbox = [u8; MAILBOX];

/// A fence, by the side of the command on which it stands. The handles are those of the mailboxes' pages: the first and
/// the second good allocation of the opening.
pub enum Fence<'a> {
    /// The command dword is written next: copy both mailboxes to their pages, so that the device sees them before it sees
    /// the command.
    ToDevice {
        /// To be copied from.
        inbox: &'a Mailbox,
        /// The handle of the pages to be copied to.
        inbox_pages: u64,
        /// To be copied from.
        outbox: &'a Mailbox,
        /// The handle of the pages to be copied to.
        outbox_pages: u64,
    },
    /// The command was seen done: copy the outbox's page to the mailbox.
    FromDevice {
        /// To be copied to.
        outbox: &'a mut Mailbox,
        /// The handle of the pages to be copied from.
        outbox_pages: u64,
    },
}

/// The bus and the host. `None` and `false` say "failed"; a warning counts as failed.
///
/// A call that is reported failed may have had its effect all the same, but for `allocate` and `map`: those have handed
/// over nothing and mapped nothing. `unmap` and `free` are the last word on what they name, good or not.
pub trait Bus {
    /// `Pci.Read` of the configuration space, width 16, one value.
    fn config_read16(&mut self, offset: u16) -> Option<u16>;

    /// The same of width 32.
    fn config_read32(&mut self, offset: u16) -> Option<u32>;

    /// `Pci.Write`, width 16, one value.
    fn config_write16(&mut self, offset: u16, value: u16) -> bool;

    /// The same of width 32.
    fn config_write32(&mut self, offset: u16, value: u32) -> bool;

    /// `Mem.Read` of width 32, one value, as the bus gives it: the card's big-endian dword is not swapped here.
    fn register_read(&mut self, bar: u8, offset: u64) -> Option<u32>;

    /// `Mem.Write` of width 32, one value, as it stands.
    fn register_write(&mut self, bar: u8, offset: u64, value: u32) -> bool;

    /// `Attributes` with that operation and value; what it gives, or any number for set and enable.
    fn attributes(&mut self, call: Attribute, value: u64) -> Option<u64>;

    /// `GetBarAttributes`, for the resource list alone. Copy its bytes to `list`, give the list back with `FreePool`, and
    /// tell how many bytes there are. A list ends with the byte 0x79 and a checksum behind its descriptors, each of which
    /// says its length; it is looked at as far as its first memory descriptor, and what lies behind that, behind 0x79 or
    /// behind an unknown tag need not be copied. A list that is cut before is 27, no bytes at all too. A null list is a
    /// failure, though the call was good.
    fn resource(&mut self, bar: u8, list: &mut [u8]) -> Option<usize>;

    /// `Stall`. It cannot fail.
    fn stall(&mut self, us: u32);

    /// `AllocateBuffer` of so many pages, any pages, boot services data. Zero them. The answer is any number by which the
    /// loader knows them from then on; 0 is as good as any. A null address is a failure, though the call was good.
    fn allocate(&mut self, pages: u64) -> Option<u64>;

    /// `Map` of the pages under that handle as a common buffer of so many bytes. The device address and the bytes that were
    /// mapped, as `Map` gave them; keep its token under the handle. A size other than the one asked for is no failure here:
    /// the session sees it, and asks for the unmap.
    fn map(&mut self, handle: u64, bytes: u64) -> Option<Mapping>;

    /// `Unmap` with the token that is kept under the handle.
    fn unmap(&mut self, handle: u64) -> bool;

    /// `FreeBuffer` of the pages under the handle. From here on the handle may be used anew.
    fn free(&mut self, handle: u64, pages: u64) -> bool;

    /// Copies the mailboxes, and keeps reads and writes of memory from being moved over this place. It cannot fail.
    fn fence(&mut self, fence: Fence<'_>);
}
