//! A bus that answers from lists and keeps what it was asked.

use std::cell::RefCell;
use std::collections::VecDeque;
use std::rc::Rc;

use world::bus::{Allocation, AttributeCall, Bus, Handle, Mapping, Resource};
use world::memory::Pages;

use crate::glue::{self, Context};

#[derive(Default)]
pub struct Script {
    /// The answer to a BAR resource question.
    pub list: Vec<u8>,
    /// What the register reads give, as the card has the dwords, and how often.
    pub reads: VecDeque<(u32, u64)>,
    pub writes: Vec<(u64, u32)>,
    pub stalls: Vec<u64>,
    /// The pages of the largest allocation that is granted.
    pub grant: u64,
    /// The pages of every allocation, granted or not.
    pub asked: Vec<u64>,
    /// The bytes of every map.
    pub maps: Vec<u64>,
    pub host: Vec<Pages>,
}

impl Script {
    fn next_read(&mut self) -> Option<u32> {
        while let Some((value, times)) = self.reads.front_mut() {
            if *times > 0 {
                *times -= 1;
                return Some(*value);
            }
            self.reads.pop_front();
        }
        None
    }
}

impl Bus for Script {
    fn config_read16(&mut self, _: u32) -> Option<u16> {
        None
    }
    fn config_read32(&mut self, _: u32) -> Option<u32> {
        None
    }
    fn config_write16(&mut self, _: u32, _: u16) -> bool {
        false
    }
    fn config_write32(&mut self, _: u32, _: u32) -> bool {
        false
    }
    fn register_read(&mut self, _: u8, _: u64) -> Option<u32> {
        self.next_read().map(u32::to_be)
    }
    fn register_write(&mut self, bar: u8, offset: u64, value: u32) -> bool {
        self.writes.push((offset, value));
        bar == 0
    }
    fn attributes(&mut self, _: AttributeCall, _: u64) -> Option<u64> {
        None
    }
    fn resource(&mut self, _: u8) -> Resource {
        Resource::List(self.list.clone())
    }
    fn free_pool(&mut self, _: u8) {}
    fn stall(&mut self, us: u64) {
        self.stalls.push(us);
    }
    fn allocate(&mut self, pages: u64) -> Allocation {
        self.asked.push(pages);
        if pages > self.grant {
            return Allocation::Failed;
        }
        self.host.push(Pages::zeroed(pages));
        Allocation::Pages(Handle(self.host.len() as u64))
    }
    fn map(&mut self, handle: Handle, bytes: u64) -> Option<Mapping> {
        self.maps.push(bytes);
        Some(Mapping { address: handle.0 << 40, bytes })
    }
    fn unmap(&mut self, _: Handle) -> bool {
        true
    }
    fn free(&mut self, _: Handle, _: u64) -> bool {
        true
    }
    fn pages(&self, handle: Handle) -> &Pages {
        &self.host[handle.0 as usize - 1]
    }
    fn inbox_at(&self, _: u64) -> Option<Vec<u8>> {
        None
    }
}

/// Runs a part over a script, and gives the script back.
pub fn over_script<T>(script: Script, part: impl FnOnce() -> T) -> (T, Script) {
    let bus = Rc::new(RefCell::new(script));
    let context = Context::new(bus.clone());
    let result = glue::call(&context, part).expect("no panic");
    drop(context);
    let script = bus.take();
    (result, script)
}
