//! What a world will do: everything that is decided before the first question.

use crate::bus::Resource;
use crate::seeded;

/// A command that shows GO for ever.
pub const NEVER: u64 = u64::MAX;

#[derive(Clone, Debug)]
pub struct Plan {
    pub host: HostPlan,
    pub card: CardPlan,
    pub config: ConfigPlan,
    pub resources: ResourcePlan,
    pub attributes: AttributePlan,
    pub faults: Vec<Fault>,
}

/// One bus call reported failed. Stalls, fences and free_pool are not counted.
/// A failed allocation or map is never taken, a failed unmap or free always.
#[derive(Clone, Copy, Debug)]
pub struct Fault {
    /// The call's number, from 0.
    pub call: u64,
    /// Whether the call had its effect all the same.
    pub taken: bool,
}

/// What is decided from a moment on. Commands, bus calls, allocations and maps are counted from there, from 0.
#[derive(Clone, Default, Debug)]
pub struct Later {
    /// Commands that do not end as `CardPlan::usual`, by their number among those taken.
    pub commands: Vec<(u64, Behaviour)>,
    pub faults: Vec<Fault>,
    pub null: Vec<u64>,
    pub odd_maps: Vec<(u64, OddMap)>,
}

#[derive(Clone, Debug)]
pub struct AttributePlan {
    pub original: u64,
    pub supported: u64,
}

#[derive(Clone, Debug)]
pub struct HostPlan {
    pub addresses: Addresses,
    /// The pages of the largest allocation that is granted.
    pub limit: u64,
    /// The allocations, from 0, that succeed with a null host address.
    pub null: Vec<u64>,
    /// The maps, from 0, that are answered otherwise.
    pub odd_maps: Vec<(u64, OddMap)>,
}

/// How device addresses are given out.
#[derive(Clone, Copy, Debug)]
pub enum Addresses {
    /// One after the other.
    Rising { from: u64 },
    /// Of every alignment, anywhere below 2^64.
    Any { seed: u64 },
}

/// What a good map says in place of the usual.
#[derive(Clone, Copy, Default, Debug)]
pub struct OddMap {
    pub address: Option<u64>,
    pub bytes: Option<u64>,
}

#[derive(Clone, Debug)]
pub struct CardPlan {
    /// What the owner register reads first; 0 is free.
    pub owner: u32,
    /// For each reset, the semaphore reads that are not 0 before one is.
    pub semaphore: Vec<u32>,
    /// For each reset, the vendor reads that give 0xffff.
    pub absent: Vec<u32>,
    pub start: Start,
    pub replies: Replies,
    /// Commands that do not end as `usual`; the first that fits counts.
    pub commands: Vec<(Which, Behaviour)>,
    pub usual: Behaviour,
    /// Decides what all other registers read.
    pub registers: u64,
}

impl CardPlan {
    /// How command number `n` (from 0, among those taken) ends.
    pub fn behaviour(&self, n: u64, op: u16) -> Behaviour {
        let fits = |w: &Which| match *w {
            Which::Number(m) => m == n,
            Which::Opcode(o) => o == op,
        };
        self.commands.iter().find(|(w, _)| fits(w)).map_or(self.usual, |(_, b)| *b)
    }
}

/// The status dword after a reset.
#[derive(Clone, Copy, Debug)]
pub struct Start {
    pub t: bool,
    /// The reads that show GO.
    pub polls: u64,
    pub status: u8,
}

#[derive(Clone, Copy, Debug)]
pub enum Which {
    Number(u64),
    Opcode(u16),
}

/// How a command ends.
#[derive(Clone, Copy, Debug)]
pub struct Behaviour {
    /// The reads of the status dword that show GO, or `NEVER`.
    pub polls: u64,
    pub status: u8,
}

impl Behaviour {
    pub const GOOD: Behaviour = Behaviour { polls: 0, status: 0 };

    pub fn status(status: u8) -> Behaviour {
        Behaviour { polls: 0, status }
    }

    pub fn after(polls: u64) -> Behaviour {
        Behaviour { polls, status: 0 }
    }
}

/// What the card writes to the outbox, from byte 0; and the immediates.
#[derive(Clone, Debug)]
pub struct Replies {
    pub fw: Vec<u8>,
    pub cap: Vec<u8>,
    /// Ports 1 and 2.
    pub ports: [Vec<u8>; 2],
    pub func: Vec<u8>,
    pub adapter: Vec<u8>,
    /// The immediate of SET_ICM_SIZE.
    pub aux_pages: u64,
    /// Decides the answers to all other commands.
    pub client: u64,
}

#[derive(Clone, Debug)]
pub struct ConfigPlan {
    /// Dwords 0x00 to 0x3c; the BARs are those from 0x10 on.
    pub header: [u32; 16],
    pub chain: Vec<Capability>,
    /// Decides all bytes from 0x40 on that are no capability header.
    pub fill: u64,
}

impl ConfigPlan {
    pub fn bars(&self) -> [u32; 6] {
        core::array::from_fn(|i| self.header[4 + i])
    }
}

/// The first two bytes of a capability.
#[derive(Clone, Copy, Debug)]
pub struct Capability {
    pub at: u8,
    pub id: u8,
    pub next: u8,
}

#[derive(Clone, Debug)]
pub struct ResourcePlan {
    pub numbering: Numbering,
    /// The size of the BAR that begins in each register.
    pub sizes: [u64; 6],
    /// Indexes that are answered otherwise.
    pub odd: Vec<(u8, Resource)>,
    /// Every list is said anew as one memory descriptor, or as none: what the documents read in it, for the Rust.
    pub plain: bool,
}

/// What a `BarIndex` counts.
#[derive(Clone, Copy, Debug)]
pub enum Numbering {
    Registers,
    Count,
}

/// Input L of document 01, the 168 bytes that are read.
pub fn input_l() -> Vec<u8> {
    let mut l = vec![0; 168];
    (l[0x1f], l[0x37], l[0x4b]) = (0x07, 0x01, 12);
    let entries: [u16; 10] = [32, 256, 32, 64, 128, 128, 128, 64, 8, 64];
    for (i, e) in entries.into_iter().enumerate() {
        put_be16(&mut l, 0x80 + 2 * i, e);
    }
    put_be64(&mut l, 0xa0, 0x1_0012_1000);
    l
}

pub fn put_be16(bytes: &mut [u8], at: usize, v: u16) {
    bytes[at..at + 2].copy_from_slice(&v.to_be_bytes());
}

pub fn put_be64(bytes: &mut [u8], at: usize, v: u64) {
    bytes[at..at + 8].copy_from_slice(&v.to_be_bytes());
}

/// A QUERY_FW reply: pages, revision, and the catastrophic buffer at 0x7f000 of BAR 0.
pub fn fw_reply(pages: u16, revision: u16) -> Vec<u8> {
    let mut fw = vec![0; 64];
    put_be16(&mut fw, 0x00, pages);
    put_be16(&mut fw, 0x0a, revision);
    put_be64(&mut fw, 0x30, 0x7f000);
    fw
}

impl Plan {
    /// A card with input L at revision 3 that does as it is told, on a host
    /// that grants everything; BAR indexes are register numbers.
    pub fn obedient() -> Plan {
        Plan {
            host: HostPlan {
                addresses: Addresses::Rising { from: 0x4000_0000 },
                limit: 1 << 16,
                null: Vec::new(),
                odd_maps: Vec::new(),
            },
            card: obedient_card(),
            config: obedient_config(),
            resources: ResourcePlan {
                numbering: Numbering::Registers,
                sizes: [1 << 20, 0, 8 << 20, 0, 0, 0],
                odd: Vec::new(),
                plain: false,
            },
            attributes: AttributePlan { original: 0x7, supported: 0xff07 },
            faults: Vec::new(),
        }
    }

    /// One of the plans that a seed decides, inside the domain of document 01.
    pub fn seeded(seed: u64) -> Plan {
        seeded::plan(seed)
    }

    /// The same card and host on a good day: an opening fails by a reply that is refused, and by nothing else.
    pub fn calm(mut self) -> Plan {
        self.faults.clear();
        self.host.limit = self.host.limit.max(4096);
        self.host.null.clear();
        self.host.odd_maps.clear();
        self.card.owner = 0;
        self.card.start.polls = 0;
        self.card.commands.clear();
        self.card.replies.aux_pages %= 4096;
        // The first reset is the opening's.
        for times in [&mut self.card.semaphore, &mut self.card.absent] {
            times.first_mut().into_iter().for_each(|n| *n %= 16);
        }
        self
    }
}

fn obedient_card() -> CardPlan {
    CardPlan {
        owner: 0,
        semaphore: Vec::new(),
        absent: Vec::new(),
        start: Start { t: false, polls: 0, status: 0 },
        replies: Replies {
            fw: fw_reply(4, 3),
            cap: input_l(),
            ports: [vec![0xc2; 64], vec![0x42; 64]],
            func: vec![0; 64],
            adapter: vec![0; 256],
            aux_pages: 3,
            client: 0,
        },
        commands: Vec::new(),
        usual: Behaviour::GOOD,
        registers: 0,
    }
}

fn obedient_config() -> ConfigPlan {
    let mut header = [0; 16];
    (header[0], header[1], header[2]) = (0x1003_15b3, 0x0010_0006, 0x0200_0000);
    (header[4], header[6]) = (0xf000_0004, 0xe000_000c);
    (header[11], header[13], header[15]) = (0x0001_15b3, 0x40, 0x0000_010b);
    let chain = vec![Capability { at: 0x40, id: 0x01, next: 0x60 }, Capability { at: 0x60, id: 0x10, next: 0 }];
    ConfigPlan { header, chain, fill: 1 }
}
