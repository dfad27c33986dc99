//! Host memory: pages by handle, device addresses by mapping.

use crate::bus::{Allocation, Handle, Mapping};
use crate::memory::Pages;
use crate::plan::{Addresses, HostPlan, OddMap};
use crate::prng::Prng;
use crate::PAGE;

/// A run of device addresses; it may end at 2^64.
#[derive(Clone, Copy, PartialEq, Eq, Debug)]
pub struct Span {
    pub start: u64,
    pub bytes: u64,
}

impl Span {
    fn last(self) -> u64 {
        self.start.saturating_add(self.bytes.saturating_sub(1))
    }

    pub fn meets(self, other: Span) -> bool {
        self.start <= other.last() && other.start <= self.last()
    }

    pub fn has(self, address: u64) -> bool {
        self.start <= address && address <= self.last()
    }
}

/// What a buffer is to the card besides the blocks that commands name.
#[derive(Clone, Copy, PartialEq, Eq, Debug)]
pub enum Role {
    /// Mapped before the first command: a mailbox of every command.
    Mailbox,
    /// Mapped whole between INIT_HCA and CLOSE_HCA.
    Lent,
    Other,
}

pub struct Buffer {
    pages: Pages,
    /// Where the card sees it, from its map on; kept after the unmap.
    pub span: Option<Span>,
    pub role: Role,
    mapped: bool,
    freed: bool,
}

pub struct Host {
    plan: HostPlan,
    prng: Prng,
    /// The next address of `Addresses::Rising`.
    next: u64,
    buffers: Vec<Buffer>,
    allocations: u64,
    maps: u64,
}

impl Host {
    pub fn new(plan: HostPlan) -> Host {
        let (next, seed) = match plan.addresses {
            Addresses::Rising { from } => (from, 0),
            Addresses::Any { seed } => (0, seed),
        };
        Host { plan, prng: Prng::new(seed), next, buffers: Vec::new(), allocations: 0, maps: 0 }
    }

    pub fn allocate(&mut self, pages: u64) -> Allocation {
        self.allocations += 1;
        if self.plan.null.contains(&(self.allocations - 1)) {
            return Allocation::Null;
        }
        if pages > self.plan.limit {
            return Allocation::Failed;
        }
        let pages = Pages::zeroed(pages);
        self.buffers.push(Buffer { pages, span: None, role: Role::Other, mapped: false, freed: false });
        Allocation::Pages(Handle(self.buffers.len() as u64))
    }

    pub fn map(&mut self, handle: Handle, bytes: u64, role: Role) -> Option<Mapping> {
        let odd = self.plan.odd_maps.iter().find(|(n, _)| *n == self.maps).map(|(_, o)| *o).unwrap_or_default();
        self.maps += 1;
        let mapped = odd.bytes.unwrap_or(bytes);
        let address = odd.address.unwrap_or_else(|| self.address(bytes.max(mapped).next_multiple_of(PAGE)));
        let buffer = self.buffer_mut(handle)?;
        buffer.mapped = true;
        buffer.role = if mapped == bytes { role } else { Role::Other };
        buffer.span = Some(Span { start: address, bytes });
        Some(Mapping { address, bytes: mapped })
    }

    /// False where the handle is not mapped.
    pub fn unmap(&mut self, handle: Handle) -> bool {
        self.buffer_mut(handle).is_some_and(|b| std::mem::take(&mut b.mapped))
    }

    /// False where these pages are not there to give back, or still mapped.
    pub fn free(&mut self, handle: Handle, pages: u64) -> bool {
        self.buffer_mut(handle).is_some_and(|b| {
            let fits = !b.freed && !b.mapped && b.pages.count() == pages;
            b.freed = true;
            fits
        })
    }

    pub fn buffer(&self, handle: Handle) -> Option<&Buffer> {
        self.buffers.get((handle.0 as usize).checked_sub(1)?)
    }

    /// The memory behind a handle that was handed out.
    pub fn pages(&self, handle: Handle) -> &Pages {
        &self.buffer(handle).expect("a handle that was handed out").pages
    }

    /// The handles not given back, in order of allocation.
    pub fn in_use(&self) -> Vec<Handle> {
        let numbers = self.buffers.iter().enumerate().filter(|(_, b)| !b.freed).map(|(i, _)| i as u64 + 1);
        numbers.map(Handle).collect()
    }

    /// The handles that are mapped, in order of allocation.
    pub fn mapped(&self) -> Vec<Handle> {
        let numbers = self.buffers.iter().enumerate().filter(|(_, b)| b.mapped).map(|(i, _)| i as u64 + 1);
        numbers.map(Handle).collect()
    }

    /// The card was reset: no buffer is anything to it.
    pub fn forget_roles(&mut self) {
        for b in &mut self.buffers {
            b.role = Role::Other;
        }
    }

    /// Allocations and maps that are answered otherwise, counted from here.
    pub fn schedule(&mut self, null: Vec<u64>, odd_maps: Vec<(u64, OddMap)>) {
        let (allocations, maps) = (self.allocations, self.maps);
        self.plan.null.extend(null.into_iter().map(|n| allocations + n));
        self.plan.odd_maps.splice(0..0, odd_maps.into_iter().map(|(n, o)| (maps + n, o)));
    }

    /// The mailbox of that number, from 0, if it is mapped at this address.
    fn mailbox_at(&self, n: usize, address: u64) -> Option<&Pages> {
        let mailbox = self.buffers.iter().filter(|b| b.role == Role::Mailbox).nth(n)?;
        let there = mailbox.mapped && mailbox.span.is_some_and(|s| s.start == address);
        there.then_some(&mailbox.pages)
    }

    /// The first mailbox, if it is mapped at this address.
    pub fn inbox_at(&self, address: u64) -> Option<Vec<u8>> {
        self.mailbox_at(0, address).map(|inbox| inbox.read(0, PAGE))
    }

    /// Up to a page at a device address, if it is mapped.
    pub fn read_at(&self, address: u64) -> Option<Vec<u8>> {
        let (pages, offset) = self.mapped_at(address)?;
        Some(pages.read(offset, PAGE))
    }

    /// The card writes a reply: to the second mailbox if that is what the address names, else nowhere.
    pub fn reply_at(&self, address: u64, bytes: &[u8]) {
        if let Some(outbox) = self.mailbox_at(1, address) {
            outbox.write(0, bytes);
        }
    }

    fn mapped_at(&self, address: u64) -> Option<(&Pages, u64)> {
        let at = |b: &Buffer| b.span.filter(|s| b.mapped && s.has(address)).map(|s| address - s.start);
        self.buffers.iter().find_map(|b| Some((&b.pages, at(b)?)))
    }

    fn buffer_mut(&mut self, handle: Handle) -> Option<&mut Buffer> {
        self.buffers.get_mut((handle.0 as usize).checked_sub(1)?)
    }

    /// A page multiple at which `bytes`, whole pages, end by 2^64 and meet no
    /// mapped buffer.
    fn address(&mut self, bytes: u64) -> u64 {
        loop {
            let start = match self.plan.addresses {
                Addresses::Rising { .. } => self.rising(bytes),
                Addresses::Any { .. } => self.any(bytes),
            };
            let span = Span { start, bytes };
            let ends = start == 0 || bytes <= start.wrapping_neg();
            let met = |b: &Buffer| b.mapped && b.span.is_some_and(|s| s.meets(span));
            if ends && !self.buffers.iter().any(met) {
                return start;
            }
        }
    }

    fn rising(&mut self, bytes: u64) -> u64 {
        let start = self.next;
        self.next = start.wrapping_add(bytes);
        start
    }

    /// Every alignment from a page to 2^45, 0 and the first pages, the last
    /// pages below 2^32 and below 2^64.
    fn any(&mut self, bytes: u64) -> u64 {
        let few = PAGE * self.prng.below(4);
        match self.prng.below(16) {
            0 => bytes.wrapping_neg().wrapping_sub(few),
            1 => few,
            2 => (1u64 << 32).wrapping_sub(bytes).wrapping_sub(few),
            _ => (self.prng.next_u64() | 1) << (12 + self.prng.below(34)),
        }
    }
}
