//! The questions of document 01, as calls that an environment answers.
//! `None` and `false` say "failed".

use std::fmt;

use crate::memory::Pages;

/// One handing over of pages, numbered from 1 in the order of allocation.
#[derive(Clone, Copy, PartialEq, Eq, Debug)]
pub struct Handle(pub u64);

impl fmt::Display for Handle {
    fn fmt(&self, f: &mut fmt::Formatter<'_>) -> fmt::Result {
        write!(f, "h{}", self.0)
    }
}

/// The answer to an allocation. `Null`, success with a null host address,
/// hands over nothing: a driver takes it as failed.
#[derive(Clone, Copy, PartialEq, Eq, Debug)]
pub enum Allocation {
    Failed,
    Null,
    Pages(Handle),
}

/// A good answer to a map: device address, and the bytes that were mapped.
#[derive(Clone, Copy, PartialEq, Eq, Debug)]
pub struct Mapping {
    pub address: u64,
    pub bytes: u64,
}

/// The answer to a BAR resource question. `Null`, success with a null list,
/// is taken as failed. A list goes back with `Bus::free_pool`.
#[derive(Clone, PartialEq, Eq, Debug)]
pub enum Resource {
    Failed,
    Null,
    List(Vec<u8>),
}

/// `EFI_PCI_IO_PROTOCOL_ATTRIBUTE_OPERATION`, the four that are used.
#[derive(Clone, Copy, PartialEq, Eq, Debug)]
pub enum AttributeCall {
    Get,
    Set,
    Enable,
    Supported,
}

impl AttributeCall {
    /// The call of a UEFI operation number.
    pub fn from_number(n: u32) -> Option<AttributeCall> {
        match n {
            0 => Some(AttributeCall::Get),
            1 => Some(AttributeCall::Set),
            2 => Some(AttributeCall::Enable),
            4 => Some(AttributeCall::Supported),
            _ => None,
        }
    }
}

pub trait Bus {
    fn config_read16(&mut self, offset: u32) -> Option<u16>;
    fn config_read32(&mut self, offset: u32) -> Option<u32>;
    fn config_write16(&mut self, offset: u32, value: u16) -> bool;
    fn config_write32(&mut self, offset: u32, value: u32) -> bool;
    /// A register as the CPU reads it: the card's big-endian dword comes swapped.
    fn register_read(&mut self, bar: u8, offset: u64) -> Option<u32>;
    fn register_write(&mut self, bar: u8, offset: u64, value: u32) -> bool;
    fn attributes(&mut self, call: AttributeCall, value: u64) -> Option<u64>;
    fn resource(&mut self, index: u8) -> Resource;
    /// Give back the list that `resource` gave for `index`.
    fn free_pool(&mut self, index: u8);
    fn stall(&mut self, us: u64);
    fn allocate(&mut self, pages: u64) -> Allocation;
    fn map(&mut self, handle: Handle, bytes: u64) -> Option<Mapping>;
    fn unmap(&mut self, handle: Handle) -> bool;
    fn free(&mut self, handle: Handle, pages: u64) -> bool;
    /// Cannot fail and is not compared. Host memory is shared with the card,
    /// so a driver that keeps its mailboxes elsewhere copies them here, by `pages`.
    fn fence(&mut self) {}

    /// The memory behind a handle, also after its free.
    fn pages(&self, handle: Handle) -> &Pages;
    /// Where the pages of a good allocation lie, when they are handed out.
    fn hand_out(&self, handle: Handle) -> *mut u8 {
        self.pages(handle).stale().as_ptr()
    }
    /// The inbox, if it is mapped at this device address. The inbox is the
    /// first buffer that was mapped since the card was reset.
    fn inbox_at(&self, address: u64) -> Option<Vec<u8>>;
}
