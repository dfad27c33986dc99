//! A bus on which one read of the status dword shows GO, whatever the card shows; and which notes, where that is wanted,
//! what the mailboxes hold at each command and at its end.

use world::bus::{Allocation, AttributeCall, Bus, Handle, Mapping, Resource};
use world::memory::Pages;
use world::registers::{BAR_DCS, GO, GO_WRITE, T_SHIFT};
use world::PAGE;

/// What the mailboxes held.
#[derive(Clone, PartialEq, Eq, Debug, Default)]
pub struct Notes {
    /// The inbox at every write of the command dword.
    pub posted: Vec<Vec<u8>>,
    /// The reads of the status dword, from 0, at which a command was seen done, and the outbox then.
    pub done: Vec<(u64, Vec<u8>)>,
    /// The pages handed over so far; the first two are the mailboxes'.
    pages: Vec<Handle>,
    /// The T of the command that is polled.
    polled: Option<u32>,
}

pub struct Glimpse<B> {
    pub bus: B,
    /// The read of the status dword, from 0.
    at: Option<u64>,
    /// How many of them there were.
    pub reads: u64,
    pub notes: Option<Notes>,
}

impl<B: Bus> Glimpse<B> {
    pub fn new(bus: B, at: Option<u64>) -> Glimpse<B> {
        Glimpse { bus, at, reads: 0, notes: None }
    }

    /// The read that shows GO, counted from here.
    pub fn schedule(&mut self, at: Option<u64>) {
        self.at = at.map(|n| self.reads + n);
    }

    /// The first page of a mailbox, by its number among the pages.
    fn mailbox(&self, n: usize) -> Vec<u8> {
        let handle = self.notes.as_ref().and_then(|notes| notes.pages.get(n));
        handle.map(|h| self.bus.pages(*h).read(0, PAGE)).unwrap_or_default()
    }

    /// The command dword was written; it is polled if that was good.
    fn note_post(&mut self, inbox: Vec<u8>, go: u32, good: bool) {
        if let Some(notes) = &mut self.notes {
            notes.posted.push(inbox);
            notes.polled = good.then_some((go >> T_SHIFT) & 1);
        }
    }

    /// The status dword was read: a command that is polled is done when GO is clear and T is its own.
    fn note_read(&mut self, answer: Option<u32>) {
        let polled = self.notes.as_ref().and_then(|notes| notes.polled);
        let status = answer.map(u32::from_be);
        let done = status.is_some_and(|s| s & GO == 0 && Some((s >> T_SHIFT) & 1) == polled);
        let outbox = if done { self.mailbox(1) } else { Vec::new() };
        let Some(notes) = &mut self.notes else {
            return;
        };
        if done {
            notes.done.push((self.reads - 1, outbox));
        }
        if done || status.is_none() {
            notes.polled = None;
        }
    }

    fn shown(&mut self) -> u32 {
        let now = self.at == Some(self.reads);
        self.reads += 1;
        u32::from(now) * GO.to_be()
    }
}

impl<B: Bus> Bus for Glimpse<B> {
    fn config_read16(&mut self, offset: u32) -> Option<u16> {
        self.bus.config_read16(offset)
    }

    fn config_read32(&mut self, offset: u32) -> Option<u32> {
        self.bus.config_read32(offset)
    }

    fn config_write16(&mut self, offset: u32, value: u16) -> bool {
        self.bus.config_write16(offset, value)
    }

    fn config_write32(&mut self, offset: u32, value: u32) -> bool {
        self.bus.config_write32(offset, value)
    }

    fn register_read(&mut self, bar: u8, offset: u64) -> Option<u32> {
        if (bar, offset) != (BAR_DCS, GO_WRITE) {
            return self.bus.register_read(bar, offset);
        }
        let more = self.shown();
        let answer = self.bus.register_read(bar, offset).map(|v| v | more);
        self.note_read(answer);
        answer
    }

    fn register_write(&mut self, bar: u8, offset: u64, value: u32) -> bool {
        let inbox = if (bar, offset) == (BAR_DCS, GO_WRITE) { self.mailbox(0) } else { Vec::new() };
        let good = self.bus.register_write(bar, offset, value);
        if (bar, offset) == (BAR_DCS, GO_WRITE) {
            self.note_post(inbox, u32::from_be(value), good);
        }
        good
    }

    fn attributes(&mut self, call: AttributeCall, value: u64) -> Option<u64> {
        self.bus.attributes(call, value)
    }

    fn resource(&mut self, index: u8) -> Resource {
        self.bus.resource(index)
    }

    fn free_pool(&mut self, index: u8) {
        self.bus.free_pool(index);
    }

    fn stall(&mut self, us: u64) {
        self.bus.stall(us);
    }

    fn allocate(&mut self, pages: u64) -> Allocation {
        let answer = self.bus.allocate(pages);
        if let (Allocation::Pages(handle), Some(notes)) = (answer, &mut self.notes) {
            notes.pages.push(handle);
        }
        answer
    }

    fn map(&mut self, handle: Handle, bytes: u64) -> Option<Mapping> {
        self.bus.map(handle, bytes)
    }

    fn unmap(&mut self, handle: Handle) -> bool {
        self.bus.unmap(handle)
    }

    fn free(&mut self, handle: Handle, pages: u64) -> bool {
        self.bus.free(handle, pages)
    }

    fn pages(&self, handle: Handle) -> &Pages {
        self.bus.pages(handle)
    }

    fn inbox_at(&self, address: u64) -> Option<Vec<u8>> {
        self.bus.inbox_at(address)
    }
}
