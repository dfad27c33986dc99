//! Host, card and bus together.

use crate::bus::{Allocation, AttributeCall, Bus, Handle, Mapping, Resource};
use crate::card::Card;
use crate::config::Config;
use crate::held::Held;
use crate::host::{Host, Role};
use crate::memory::Pages;
use crate::plan::{AttributePlan, Fault, Later, Plan, Replies, ResourcePlan};
use crate::registers::{BAR_DCS, RESET};
use crate::{resources, PAGE};

/// A list that the Rust reads otherwise than ACPI and UEFI.
pub const OTHER_LIST: &str = "a resource list that is not one memory range";
const LAST_BAR: u8 = 5;

/// What host and card hold, for two worlds to be compared by.
#[derive(Clone, PartialEq, Eq, Debug)]
pub struct Holdings {
    pub in_use: Vec<Handle>,
    pub mapped: Vec<Handle>,
    pub card: Held,
    /// A session's command may still be running.
    pub pending: bool,
    pub attributes: u64,
}

pub struct World {
    host: Host,
    card: Card,
    config: Config,
    resources: ResourcePlan,
    bars: [u32; 6],
    attributes: AttributePlan,
    faults: Vec<Fault>,
    calls: u64,
    misuse: Vec<String>,
    outside: Vec<&'static str>,
}

impl World {
    pub fn new(plan: Plan) -> World {
        World {
            config: Config::new(&plan.config),
            bars: plan.config.bars(),
            host: Host::new(plan.host),
            card: Card::new(plan.card),
            resources: plan.resources,
            attributes: plan.attributes,
            faults: plan.faults,
            calls: 0,
            misuse: Vec::new(),
            outside: Vec::new(),
        }
    }

    /// The bus calls so far, as `Fault::call` counts them.
    pub fn calls(&self) -> u64 {
        self.calls
    }

    /// What no driver may do: a page given back that by the card rules the
    /// card may still use, or pages, handles and mappings that do not fit.
    pub fn misuse(&self) -> &[String] {
        &self.misuse
    }

    /// Answers that lie outside the domain of document 01.
    pub fn outside(&self) -> Vec<&'static str> {
        [&self.outside, self.card.outside()].concat()
    }

    /// The handles not given back.
    pub fn in_use(&self) -> Vec<Handle> {
        self.host.in_use()
    }

    /// What host and card hold now, and the attributes.
    pub fn holdings(&self) -> Holdings {
        Holdings {
            in_use: self.host.in_use(),
            mapped: self.host.mapped(),
            card: self.card.held().clone(),
            pending: self.card.pending(),
            attributes: self.attributes.original,
        }
    }

    /// The device address behind a card address, by the MAP_ICM commands.
    pub fn icm_at(&self, virt: u64) -> Option<u64> {
        self.card.icm_at(virt)
    }

    /// The card holds no page, and INIT_HCA is not in force.
    pub fn card_holds_nothing(&self) -> bool {
        self.card.holds_nothing()
    }

    /// The replies from here on.
    pub fn replies(&mut self) -> &mut Replies {
        self.card.replies()
    }

    /// What is to come from here on; it goes before all that the plan says.
    pub fn schedule(&mut self, later: Later) {
        let Later { commands, faults, null, odd_maps } = later;
        let calls = self.calls;
        self.faults.splice(0..0, faults.into_iter().map(|f| Fault { call: calls + f.call, ..f }));
        self.card.schedule(commands);
        self.host.schedule(null, odd_maps);
    }

    /// One bus call: it has its effect unless its fault says "not taken",
    /// and its answer unless there is a fault.
    fn call<T>(&mut self, effect: impl FnOnce(&mut World) -> T) -> Option<T> {
        let fault = self.fault();
        if fault.is_some_and(|f| !f.taken) {
            return None;
        }
        let answer = effect(self);
        fault.is_none().then_some(answer)
    }

    /// The next call's fault, if it has one.
    fn fault(&mut self) -> Option<Fault> {
        let n = self.calls;
        self.calls += 1;
        self.faults.iter().find(|f| f.call == n).copied()
    }

    fn write_register(&mut self, bar: u8, offset: u64, value: u32) {
        match (bar, offset) {
            (BAR_DCS, RESET) if u32::from_be(value) == 1 => {
                let absent = self.card.reset();
                self.config.reset(absent);
                self.host.forget_roles();
            }
            (BAR_DCS, _) => self.card.write(offset, value, &self.host),
            _ => {}
        }
    }

    /// Set and enable give 0, which nobody looks at.
    fn attribute_call(&mut self, call: AttributeCall, value: u64) -> u64 {
        match call {
            AttributeCall::Get => return self.attributes.original,
            AttributeCall::Supported => return self.attributes.supported,
            AttributeCall::Set => self.attributes.original = value,
            AttributeCall::Enable => self.attributes.original |= value,
        }
        0
    }

    /// By the card rules, pages of this buffer may still be used.
    fn card_may_use(&self, handle: Handle) -> bool {
        let Some(buffer) = self.host.buffer(handle) else {
            return false;
        };
        let held = buffer.span.is_some_and(|s| self.card.holds(s));
        let mailbox = buffer.role == Role::Mailbox && self.card.pending();
        let lent = buffer.role == Role::Lent && self.card.open();
        held || mailbox || lent
    }

    fn role(&self) -> Role {
        match (self.card.fresh(), self.card.open()) {
            (true, _) => Role::Mailbox,
            (false, true) => Role::Lent,
            (false, false) => Role::Other,
        }
    }

    fn check_mapping(&mut self, m: Mapping) {
        if !m.address.is_multiple_of(PAGE) {
            self.outside.push("device address no page multiple");
        }
        if m.address != 0 && m.bytes > m.address.wrapping_neg() {
            self.outside.push("device address range ends above 2^64");
        }
    }
}

impl Bus for World {
    fn config_read16(&mut self, offset: u32) -> Option<u16> {
        self.call(|w| w.config.read16(offset))
    }

    fn config_read32(&mut self, offset: u32) -> Option<u32> {
        self.call(|w| w.config.read32(offset))
    }

    fn config_write16(&mut self, offset: u32, value: u16) -> bool {
        self.call(|w| w.config.write16(offset, value)).is_some()
    }

    fn config_write32(&mut self, offset: u32, value: u32) -> bool {
        self.call(|w| w.config.write32(offset, value)).is_some()
    }

    fn register_read(&mut self, bar: u8, offset: u64) -> Option<u32> {
        let answer = self.call(|w| match bar {
            BAR_DCS => w.card.read(offset, &w.host),
            _ => w.card.other(bar, offset),
        });
        answer.filter(|_| bar <= LAST_BAR)
    }

    fn register_write(&mut self, bar: u8, offset: u64, value: u32) -> bool {
        self.call(|w| w.write_register(bar, offset, value)).is_some()
    }

    fn attributes(&mut self, call: AttributeCall, value: u64) -> Option<u64> {
        self.call(|w| w.attribute_call(call, value))
    }

    fn resource(&mut self, index: u8) -> Resource {
        let answer = self.call(|w| resources::answer(&w.resources, &w.bars, index)).unwrap_or(Resource::Failed);
        if let Resource::List(list) = &answer {
            if !resources::alone(list) && !(self.resources.plain && list == &resources::END) {
                self.outside.push(OTHER_LIST);
            }
        }
        answer
    }

    fn free_pool(&mut self, _index: u8) {}

    fn stall(&mut self, _us: u64) {}

    fn allocate(&mut self, pages: u64) -> Allocation {
        match self.fault() {
            Some(_) => Allocation::Failed,
            None => self.host.allocate(pages),
        }
    }

    fn map(&mut self, handle: Handle, bytes: u64) -> Option<Mapping> {
        if self.fault().is_some() {
            return None;
        }
        let role = self.role();
        let mapping = self.host.map(handle, bytes, role)?;
        self.check_mapping(mapping);
        Some(mapping)
    }

    fn unmap(&mut self, handle: Handle) -> bool {
        let good = self.fault().is_none();
        if !self.host.unmap(handle) {
            self.misuse.push(format!("{handle} unmapped without a mapping"));
        }
        good
    }

    fn free(&mut self, handle: Handle, pages: u64) -> bool {
        let good = self.fault().is_none();
        if self.card_may_use(handle) {
            self.misuse.push(format!("{handle} given back while the card may use it"));
        }
        if !self.host.free(handle, pages) {
            self.misuse.push(format!("{handle} given back twice, mapped, or with another page count"));
        }
        good
    }

    fn pages(&self, handle: Handle) -> &Pages {
        self.host.pages(handle)
    }

    fn inbox_at(&self, address: u64) -> Option<Vec<u8>> {
        self.host.inbox_at(address)
    }
}
