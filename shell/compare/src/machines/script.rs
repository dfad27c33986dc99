//! A bus whose answers stand in a plan, and whose calls fail where the plan says.

use world::bus::{Allocation, AttributeCall, Bus, Handle, Mapping, Resource};
use world::memory::Pages;
use world::prng::Prng;

/// The registers whose answers stand in a list.
const STATUS: u64 = 0x80698;
const SEMAPHORE: u64 = 0xf03fc;
/// More pages than this are never handed over.
const PAGES: u64 = 64;

/// Answers of one place in turn, each so many times; the last one stays. `None` fails.
#[derive(Clone, Debug, Default)]
pub struct Sequence(pub Vec<(u64, Option<u32>)>);

impl Sequence {
    pub fn of(list: &[(u64, u32)]) -> Sequence {
        Sequence(list.iter().map(|(n, v)| (*n, Some(*v))).collect())
    }

    fn next(&mut self) -> Option<u32> {
        while self.0.len() > 1 && self.0[0].0 == 0 {
            self.0.remove(0);
        }
        let (left, value) = self.0.first_mut()?;
        *left = left.saturating_sub(1);
        *value
    }
}

/// Which calls fail. Calls are counted from 0; a stall is none.
#[derive(Clone, Copy, PartialEq, Eq, Debug)]
pub enum Faults {
    None,
    At(u64),
    /// Each with this chance, by a seed.
    OneIn(u64, u64),
}

/// What the bus answers.
#[derive(Clone, Debug)]
pub struct Plan {
    /// The status dword, as the bus carries it.
    pub status: Sequence,
    pub semaphore: Sequence,
    /// The word at 0 of configuration space.
    pub vendor: Sequence,
    /// Configuration space.
    pub config: Vec<u8>,
    /// Register reads at any other place, in turn.
    pub registers: Sequence,
    /// What get, supported, enable and set give.
    pub attributes: [u64; 4],
    pub lists: [Resource; 6],
    pub allocation: Allocation,
    /// Device address, and what is added to the bytes asked for.
    pub mapping: (u64, i64),
    pub faults: Faults,
}

/// The bus.
pub struct Script {
    plan: Plan,
    /// For faults by chance.
    chance: Prng,
    /// How many calls there were.
    calls: u64,
    pages: Option<Pages>,
}

impl Script {
    pub fn new(plan: Plan) -> Script {
        let seed = match plan.faults {
            Faults::OneIn(_, seed) => seed,
            _ => 0,
        };
        Script { plan, chance: Prng::new(seed), calls: 0, pages: None }
    }

    pub fn calls(&self) -> u64 {
        self.calls
    }

    /// From here on these faults, with the calls counted anew.
    pub fn begin(&mut self, faults: Faults) {
        self.plan.faults = faults;
        self.calls = 0;
    }

    fn good(&mut self) -> bool {
        let call = self.calls;
        self.calls += 1;
        match self.plan.faults {
            Faults::None => true,
            Faults::At(n) => call != n,
            Faults::OneIn(n, _) => !self.chance.one_in(n),
        }
    }

    fn config(&self, offset: u32, bytes: u32) -> u32 {
        let byte = |i: u32| u32::from(self.plan.config.get((offset + i) as usize).copied().unwrap_or(0xff));
        (0..bytes).map(|i| byte(i) << (8 * i)).sum()
    }

    fn word(&mut self, offset: u32) -> Option<u32> {
        if offset == 0 {
            return self.plan.vendor.next();
        }
        Some(self.config(offset, 2))
    }

    fn register(&mut self, bar: u8, offset: u64) -> Option<u32> {
        match (bar, offset) {
            (0, STATUS) => self.plan.status.next(),
            (0, SEMAPHORE) => self.plan.semaphore.next(),
            _ => self.plan.registers.next(),
        }
    }
}

impl Bus for Script {
    fn config_read16(&mut self, offset: u32) -> Option<u16> {
        let answer = self.word(offset);
        self.good().then_some(answer).flatten().map(|v| v as u16)
    }

    fn config_read32(&mut self, offset: u32) -> Option<u32> {
        let answer = self.config(offset, 4);
        self.good().then_some(answer)
    }

    fn config_write16(&mut self, _: u32, _: u16) -> bool {
        self.good()
    }

    fn config_write32(&mut self, _: u32, _: u32) -> bool {
        self.good()
    }

    fn register_read(&mut self, bar: u8, offset: u64) -> Option<u32> {
        let answer = self.register(bar, offset);
        self.good().then_some(answer).flatten()
    }

    fn register_write(&mut self, _: u8, _: u64, _: u32) -> bool {
        self.good()
    }

    fn attributes(&mut self, call: AttributeCall, _: u64) -> Option<u64> {
        let at = match call {
            AttributeCall::Get => 0,
            AttributeCall::Supported => 1,
            AttributeCall::Enable => 2,
            AttributeCall::Set => 3,
        };
        let answer = self.plan.attributes[at];
        self.good().then_some(answer)
    }

    fn resource(&mut self, index: u8) -> Resource {
        let answer = self.plan.lists[usize::from(index)].clone();
        if self.good() {
            answer
        } else {
            Resource::Failed
        }
    }

    fn free_pool(&mut self, _: u8) {}

    fn stall(&mut self, _: u64) {}

    fn allocate(&mut self, pages: u64) -> Allocation {
        if !self.good() || pages > PAGES {
            return Allocation::Failed;
        }
        self.pages = Some(Pages::zeroed(pages));
        self.plan.allocation
    }

    fn map(&mut self, _: Handle, bytes: u64) -> Option<Mapping> {
        let (address, more) = self.plan.mapping;
        self.good().then_some(Mapping { address, bytes: bytes.wrapping_add_signed(more) })
    }

    fn unmap(&mut self, _: Handle) -> bool {
        self.good()
    }

    fn free(&mut self, _: Handle, _: u64) -> bool {
        self.good()
    }

    fn pages(&self, _: Handle) -> &Pages {
        self.pages.as_ref().expect("pages that were handed over")
    }

    fn inbox_at(&self, _: u64) -> Option<Vec<u8>> {
        None
    }
}
