//! The card's configuration space.

use crate::plan::ConfigPlan;
use crate::prng::Prng;

/// The extended space: a capability at 0xfc is read up to 0x10c.
const DWORDS: usize = 1024;
/// The first dword that capabilities and random filling may use.
const FIRST_FREE: usize = 0x40 / 4;
const PCIE: u8 = 0x10;

pub struct Config {
    dwords: Vec<u32>,
    /// The bits of each dword that a write changes; a reset clears them.
    writable: Vec<u32>,
    /// 16-bit reads at 0 that still give 0xffff; till then the card is away.
    absent: u32,
}

impl Config {
    pub fn new(plan: &ConfigPlan) -> Config {
        let mut fill = Prng::new(plan.fill);
        let mut dwords = plan.header.to_vec();
        dwords.extend((FIRST_FREE..DWORDS).map(|_| fill.next_u64() as u32));
        for c in &plan.chain {
            let d = &mut dwords[usize::from(c.at) / 4];
            *d = (*d & 0xffff_0000) | u32::from(c.next) << 8 | u32::from(c.id);
        }
        Config { dwords, writable: writable(plan), absent: 0 }
    }

    pub fn read32(&mut self, offset: u32) -> u32 {
        if self.absent > 0 {
            return u32::MAX;
        }
        self.dword(offset)
    }

    pub fn read16(&mut self, offset: u32) -> u16 {
        if self.absent > 0 {
            self.absent -= u32::from(offset == 0);
            return u16::MAX;
        }
        (self.dword(offset) >> (offset % 4 * 8)) as u16
    }

    pub fn write32(&mut self, offset: u32, value: u32) {
        self.write(offset, value, u32::MAX);
    }

    pub fn write16(&mut self, offset: u32, value: u16) {
        let shift = offset % 4 * 8;
        self.write(offset, u32::from(value) << shift, 0xffff << shift);
    }

    /// The card was reset and stays away for `absent` vendor reads.
    pub fn reset(&mut self, absent: u32) {
        for (d, w) in self.dwords.iter_mut().zip(&self.writable) {
            *d &= !w;
        }
        self.absent = absent;
    }

    fn dword(&self, offset: u32) -> u32 {
        self.dwords.get(offset as usize / 4).copied().unwrap_or(u32::MAX)
    }

    fn write(&mut self, offset: u32, value: u32, mask: u32) {
        let i = offset as usize / 4;
        if self.absent == 0 && i < DWORDS {
            let mask = mask & self.writable[i];
            self.dwords[i] = (self.dwords[i] & !mask) | (value & mask);
        }
    }
}

/// Command, cache line, interrupt line, BAR addresses, and the two control
/// words of the PCI Express capability.
fn writable(plan: &ConfigPlan) -> Vec<u32> {
    let mut w = vec![0; DWORDS];
    for (offset, bits) in [(0x04, 0xffff), (0x0c, 0xff), (0x3c, 0xff)] {
        w[offset / 4] = bits;
    }
    let mut high = false;
    for (i, bar) in plan.bars().into_iter().enumerate() {
        w[0x10 / 4 + i] = match bar {
            _ if high => u32::MAX,
            io if io & 1 != 0 => !0x3,
            _ => !0xf,
        };
        high = !high && bar & 7 == 4;
    }
    for c in plan.chain.iter().filter(|c| c.id == PCIE) {
        for word in [0x08, 0x10] {
            let at = u32::from(c.at) + word;
            if plan.chain.iter().all(|other| u32::from(other.at) != at) {
                w[at as usize / 4] = 0xffff;
            }
        }
    }
    w
}
