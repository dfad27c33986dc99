//! The session's bus over a bus of the world, as a loader has it over PCI I/O.

use session::{Attribute, Fence, Mapping};
use world::bus::{Allocation, AttributeCall, Bus, Handle, Resource};
use world::PAGE;

const BYTES: usize = PAGE as usize;

pub struct Over<'a, B> {
    bus: &'a mut B,
    /// The session's handles are the bus's with these bits turned.
    mask: u64,
    /// The commands posted whose end was not seen: fences to the device, without those from it.
    pub unseen: i64,
    /// All fences.
    pub fences: u64,
}

impl<'a, B: Bus> Over<'a, B> {
    pub fn new(bus: &'a mut B) -> Over<'a, B> {
        Over::masked(bus, 0)
    }

    pub fn masked(bus: &'a mut B, mask: u64) -> Over<'a, B> {
        Over { bus, mask, unseen: 0, fences: 0 }
    }

    fn handle(&self, handle: u64) -> Handle {
        Handle(handle ^ self.mask)
    }

    /// Pages come with anything in them, and are zeroed.
    fn zeroed(&mut self, handle: Handle, pages: u64) -> u64 {
        self.bus.hand_out(handle);
        (0..pages).for_each(|k| self.bus.pages(handle).write(k * PAGE, &[0; BYTES]));
        handle.0 ^ self.mask
    }
}

fn operation(call: Attribute) -> AttributeCall {
    match call {
        Attribute::Get => AttributeCall::Get,
        Attribute::Set => AttributeCall::Set,
        Attribute::Enable => AttributeCall::Enable,
        Attribute::Supported => AttributeCall::Supported,
    }
}

/// Never inlined, so that a profile can tell the bus from the session.
impl<B: Bus> session::Bus for Over<'_, B> {
    #[inline(never)]
    fn config_read16(&mut self, offset: u16) -> Option<u16> {
        self.bus.config_read16(offset.into())
    }

    #[inline(never)]
    fn config_read32(&mut self, offset: u16) -> Option<u32> {
        self.bus.config_read32(offset.into())
    }

    #[inline(never)]
    fn config_write16(&mut self, offset: u16, value: u16) -> bool {
        self.bus.config_write16(offset.into(), value)
    }

    #[inline(never)]
    fn config_write32(&mut self, offset: u16, value: u32) -> bool {
        self.bus.config_write32(offset.into(), value)
    }

    #[inline(never)]
    fn register_read(&mut self, bar: u8, offset: u64) -> Option<u32> {
        self.bus.register_read(bar, offset)
    }

    #[inline(never)]
    fn register_write(&mut self, bar: u8, offset: u64, value: u32) -> bool {
        self.bus.register_write(bar, offset, value)
    }

    #[inline(never)]
    fn attributes(&mut self, call: Attribute, value: u64) -> Option<u64> {
        self.bus.attributes(operation(call), value)
    }

    #[inline(never)]
    fn resource(&mut self, bar: u8, list: &mut [u8]) -> Option<usize> {
        let Resource::List(bytes) = self.bus.resource(bar) else {
            return None;
        };
        let n = bytes.len().min(list.len());
        list[..n].copy_from_slice(&bytes[..n]);
        self.bus.free_pool(bar);
        Some(n)
    }

    #[inline(never)]
    fn stall(&mut self, us: u32) {
        self.bus.stall(us.into());
    }

    #[inline(never)]
    fn allocate(&mut self, pages: u64) -> Option<u64> {
        match self.bus.allocate(pages) {
            Allocation::Failed | Allocation::Null => None,
            Allocation::Pages(handle) => Some(self.zeroed(handle, pages)),
        }
    }

    #[inline(never)]
    fn map(&mut self, handle: u64, bytes: u64) -> Option<Mapping> {
        let handle = self.handle(handle);
        self.bus.map(handle, bytes).map(|m| Mapping { address: m.address, bytes: m.bytes })
    }

    #[inline(never)]
    fn unmap(&mut self, handle: u64) -> bool {
        let handle = self.handle(handle);
        self.bus.unmap(handle)
    }

    #[inline(never)]
    fn free(&mut self, handle: u64, pages: u64) -> bool {
        let handle = self.handle(handle);
        self.bus.free(handle, pages)
    }

    #[inline(never)]
    fn fence(&mut self, fence: Fence<'_>) {
        self.fences += 1;
        match fence {
            Fence::ToDevice { inbox, inbox_pages, outbox, outbox_pages } => {
                self.unseen += 1;
                self.bus.pages(self.handle(inbox_pages)).write(0, inbox);
                self.bus.pages(self.handle(outbox_pages)).write(0, outbox);
            }
            Fence::FromDevice { outbox, outbox_pages } => {
                self.unseen -= 1;
                outbox.copy_from_slice(&self.bus.pages(self.handle(outbox_pages)).read(0, PAGE));
            }
        }
        self.bus.fence();
    }
}
