//! The bus that keeps the trace.

use crate::bus::{Allocation, AttributeCall, Bus, Handle, Mapping, Resource};
use crate::memory::Pages;
use crate::registers::{parameter, BAR_DCS, GO_WRITE, PARAMETERS};
use crate::trace::{Event, Post, Trace};

/// A bus that writes down every call to the bus behind it.
pub struct Traced<B> {
    pub bus: B,
    pub trace: Trace,
    /// The command registers as last written, whatever was answered.
    hcr: [u32; PARAMETERS],
}

impl<B: Bus> Traced<B> {
    pub fn new(bus: B) -> Traced<B> {
        Traced { bus, trace: Trace::default(), hcr: [0; PARAMETERS] }
    }

    /// The trace so far; the next one starts empty.
    pub fn take(&mut self) -> Trace {
        std::mem::take(&mut self.trace)
    }

    fn posting(&self, go: u32) -> Post {
        let pair = |high: u32, low: u32| (u64::from(high) << 32) | u64::from(low);
        let in_param = pair(self.hcr[0], self.hcr[1]);
        Post {
            op: (go & 0xfff) as u16,
            op_mod: (go >> 12) as u8,
            in_mod: self.hcr[2],
            in_param,
            out_param: pair(self.hcr[3], self.hcr[4]),
            inbox: self.bus.inbox_at(in_param).map(without_trailing_zeros),
        }
    }

    fn note_register_write(&mut self, offset: u64, value: u32) {
        let value = u32::from_be(value);
        if offset == GO_WRITE {
            let post = self.posting(value);
            self.trace.push(Event::Post(Box::new(post)));
        } else if let Some(i) = parameter(offset) {
            self.hcr[i] = value;
        }
    }
}

fn without_trailing_zeros(mut bytes: Vec<u8>) -> Vec<u8> {
    let used = bytes.iter().rposition(|b| *b != 0).map_or(0, |i| i + 1);
    bytes.truncate(used);
    bytes
}

impl<B: Bus> Bus for Traced<B> {
    fn config_read16(&mut self, offset: u32) -> Option<u16> {
        let answer = self.bus.config_read16(offset);
        self.trace.push(Event::ConfigRead { bits: 16, offset, answer: answer.map(u32::from) });
        answer
    }

    fn config_read32(&mut self, offset: u32) -> Option<u32> {
        let answer = self.bus.config_read32(offset);
        self.trace.push(Event::ConfigRead { bits: 32, offset, answer });
        answer
    }

    fn config_write16(&mut self, offset: u32, value: u16) -> bool {
        let good = self.bus.config_write16(offset, value);
        self.trace.push(Event::ConfigWrite { bits: 16, offset, value: value.into(), good });
        good
    }

    fn config_write32(&mut self, offset: u32, value: u32) -> bool {
        let good = self.bus.config_write32(offset, value);
        self.trace.push(Event::ConfigWrite { bits: 32, offset, value, good });
        good
    }

    fn register_read(&mut self, bar: u8, offset: u64) -> Option<u32> {
        let answer = self.bus.register_read(bar, offset);
        self.trace.push(Event::RegisterRead { bar, offset, answer });
        answer
    }

    fn register_write(&mut self, bar: u8, offset: u64, value: u32) -> bool {
        if bar == BAR_DCS {
            self.note_register_write(offset, value);
        }
        let good = self.bus.register_write(bar, offset, value);
        self.trace.push(Event::RegisterWrite { bar, offset, value, good });
        good
    }

    fn attributes(&mut self, call: AttributeCall, value: u64) -> Option<u64> {
        let answer = self.bus.attributes(call, value);
        self.trace.push(Event::Attributes { call, value, answer });
        answer
    }

    fn resource(&mut self, index: u8) -> Resource {
        let answer = self.bus.resource(index);
        self.trace.push(Event::Resource { index, answer: answer.clone() });
        answer
    }

    fn free_pool(&mut self, index: u8) {
        self.bus.free_pool(index);
        self.trace.push(Event::FreePool { index });
    }

    fn stall(&mut self, us: u64) {
        self.bus.stall(us);
        self.trace.push(Event::Stall { us });
    }

    fn allocate(&mut self, pages: u64) -> Allocation {
        let answer = self.bus.allocate(pages);
        self.trace.push(Event::Allocate { pages, answer });
        answer
    }

    fn map(&mut self, handle: Handle, bytes: u64) -> Option<Mapping> {
        let answer = self.bus.map(handle, bytes);
        self.trace.push(Event::Map { handle, bytes, answer });
        answer
    }

    fn unmap(&mut self, handle: Handle) -> bool {
        let good = self.bus.unmap(handle);
        self.trace.push(Event::Unmap { handle, good });
        good
    }

    fn free(&mut self, handle: Handle, pages: u64) -> bool {
        let good = self.bus.free(handle, pages);
        self.trace.push(Event::Free { handle, pages, good });
        good
    }

    fn fence(&mut self) {
        self.bus.fence();
    }

    fn pages(&self, handle: Handle) -> &Pages {
        self.bus.pages(handle)
    }

    fn inbox_at(&self, address: u64) -> Option<Vec<u8>> {
        self.bus.inbox_at(address)
    }
}
