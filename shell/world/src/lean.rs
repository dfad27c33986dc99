//! An obedient card on a host that grants what its memory allows, in as few
//! steps as an opening can have: for runs of very many openings.
//!
//! A driver zeroes every buffer that it is handed. The mailboxes have memory of
//! their own; all other buffers lie over each other in one run of pages, since
//! the card never looks into them.

use crate::bus::{Allocation, AttributeCall, Bus, Handle, Mapping, Resource};
use crate::memory::Pages;
use crate::plan::Replies;
use crate::registers::*;
use crate::trace::Post;
use crate::{resources, PAGE};

/// The first allocations of an opening, inbox and outbox.
const MAILBOXES: usize = 2;
/// More buffers than an opening has; each begins one page behind the last.
const BUFFERS: u64 = 32;
/// Buffer n is mapped at n times this: far apart, of every alignment below.
const APART_LOG: u32 = 40;
/// The register whose BAR has a size that is known or not.
const UAR_BAR: u8 = 2;
const BARS: [u32; 6] = [0xf000_0004, 0, 0xe000_000c, 0, 0, 0];
const VENDOR: u32 = 0x1003_15b3;

pub struct Lean {
    pub replies: Replies,
    /// The size of the UAR BAR; no resource is known without it.
    pub uar_size: Option<u64>,
    /// The commands since the last start.
    pub posts: Vec<Post>,
    /// The pages of every allocation since the last start.
    pub granted: Vec<u64>,
    /// The pages that one opening may have together.
    budget: u64,
    mailboxes: [Pages; MAILBOXES],
    others: Pages,
    hcr: [u32; 7],
}

impl Lean {
    pub fn new(replies: Replies, budget: u64) -> Lean {
        Lean {
            replies,
            uar_size: None,
            posts: Vec::new(),
            granted: Vec::new(),
            budget,
            mailboxes: [Pages::zeroed(1), Pages::zeroed(1)],
            others: Pages::zeroed(budget + BUFFERS),
            hcr: [0; 7],
        }
    }

    /// As after power on, for the next opening.
    pub fn start(&mut self) {
        self.posts.clear();
        self.granted.clear();
        self.hcr = [0; 7];
    }

    /// Which buffer a device address lies in, and how far from its start.
    pub fn buffer_at(address: u64) -> (u64, u64) {
        (address >> APART_LOG, address & ((1 << APART_LOG) - 1))
    }

    fn mailbox(&self, address: u64) -> Option<&Pages> {
        let (handle, offset) = Lean::buffer_at(address);
        self.mailboxes.get((handle as usize).wrapping_sub(1)).filter(|_| offset == 0)
    }

    /// A command is carried out at once, and T stays as it was posted.
    fn post(&mut self, go: u32) {
        let pair = |i: usize| u64::from(self.hcr[i]) << 32 | u64::from(self.hcr[i + 1]);
        let (op, in_param, out_param) = ((go & 0xfff) as u16, pair(0), pair(3));
        let inbox = self.mailbox(in_param).map(|m| m.read(0, PAGE));
        self.posts.push(Post { op, op_mod: (go >> 12) as u8, in_mod: self.hcr[2], in_param, out_param, inbox });
        self.hcr[6] = go & !GO & 0x00ff_ffff;
        if op == SET_ICM_SIZE {
            self.hcr[3] = (self.replies.aux_pages >> 32) as u32;
            self.hcr[4] = self.replies.aux_pages as u32;
        }
        if let (Some(reply), Some(outbox)) = (self.reply(op, self.hcr[2]), self.mailbox(out_param)) {
            outbox.write(0, reply);
        }
    }

    fn reply(&self, op: u16, in_mod: u32) -> Option<&[u8]> {
        match op {
            QUERY_FW => Some(&self.replies.fw),
            QUERY_DEV_CAP => Some(&self.replies.cap),
            QUERY_PORT => Some(&self.replies.ports[usize::from(in_mod == 2)]),
            QUERY_FUNC => Some(&self.replies.func),
            QUERY_ADAPTER => Some(&self.replies.adapter),
            _ => None,
        }
    }

    /// Vendor and BARs; all else is 0, so there is no capability.
    fn config(offset: u32) -> u32 {
        match offset {
            0 => VENDOR,
            0x10..=0x27 => BARS[(offset as usize - 0x10) / 4],
            _ => 0,
        }
    }

    fn register(&self, offset: u64) -> u32 {
        match offset {
            GO_WRITE => self.hcr[6],
            _ => parameter(offset).map_or(0, |i| self.hcr[i]),
        }
    }
}

impl Bus for Lean {
    fn config_read16(&mut self, offset: u32) -> Option<u16> {
        Some(Lean::config(offset) as u16)
    }

    fn config_read32(&mut self, offset: u32) -> Option<u32> {
        Some(Lean::config(offset))
    }

    fn config_write16(&mut self, _: u32, _: u16) -> bool {
        true
    }

    fn config_write32(&mut self, _: u32, _: u32) -> bool {
        true
    }

    fn register_read(&mut self, _: u8, offset: u64) -> Option<u32> {
        Some(self.register(offset).to_be())
    }

    fn register_write(&mut self, _: u8, offset: u64, value: u32) -> bool {
        let value = u32::from_be(value);
        match (offset, parameter(offset)) {
            (GO_WRITE, _) => self.post(value),
            (_, Some(i)) => self.hcr[i] = value,
            _ => {}
        }
        true
    }

    fn attributes(&mut self, _: AttributeCall, _: u64) -> Option<u64> {
        Some(0)
    }

    fn resource(&mut self, index: u8) -> Resource {
        match self.uar_size.filter(|_| index == UAR_BAR) {
            Some(size) => Resource::List(resources::descriptor(&BARS, UAR_BAR.into(), size)),
            None => Resource::Failed,
        }
    }

    fn free_pool(&mut self, _: u8) {}

    fn stall(&mut self, _: u64) {}

    fn allocate(&mut self, pages: u64) -> Allocation {
        assert!(self.granted.len() >= MAILBOXES || pages == 1, "a mailbox has one page");
        let left = self.budget - self.granted.iter().sum::<u64>();
        if pages > left || self.granted.len() as u64 == BUFFERS {
            return Allocation::Failed;
        }
        self.granted.push(pages);
        Allocation::Pages(Handle(self.granted.len() as u64))
    }

    fn map(&mut self, handle: Handle, bytes: u64) -> Option<Mapping> {
        Some(Mapping { address: handle.0 << APART_LOG, bytes })
    }

    fn unmap(&mut self, _: Handle) -> bool {
        true
    }

    fn free(&mut self, _: Handle, _: u64) -> bool {
        true
    }

    fn pages(&self, handle: Handle) -> &Pages {
        self.mailboxes.get(handle.0 as usize - 1).unwrap_or(&self.others)
    }

    /// A buffer that is no mailbox has room for the whole budget from its own first page on.
    fn hand_out(&self, handle: Handle) -> *mut u8 {
        match self.mailboxes.get(handle.0 as usize - 1) {
            Some(mailbox) => mailbox.stale().as_ptr(),
            None => self.others.as_ptr().wrapping_add((handle.0 * PAGE) as usize),
        }
    }

    fn inbox_at(&self, address: u64) -> Option<Vec<u8>> {
        self.mailbox(address).map(|m| m.read(0, PAGE))
    }
}
