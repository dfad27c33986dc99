//! Plans by seed: most parts as on a good day, each now and then not, so that
//! openings end in every place and about half of them are good.

use crate::bus::Resource;
use crate::plan::*;
use crate::prng::Prng;
use crate::resources::{Descriptor, END, ENDS, IO};

pub fn plan(seed: u64) -> Plan {
    let mut r = Prng::new(seed);
    Plan {
        host: host(&mut r),
        card: card(&mut r),
        config: config(&mut r),
        resources: resources(&mut r),
        attributes: AttributePlan { original: r.below(0x1_0000), supported: r.below(0x2_0000) },
        faults: faults(&mut r),
    }
}

/// None in most plans, up to three in the rest.
fn faults(r: &mut Prng) -> Vec<Fault> {
    let n = r.pick(&[0, 0, 0, 0, 0, 0, 0, 1, 1, 1, 2, 3]);
    (0..n).map(|_| Fault { call: r.below(700), taken: r.one_in(2) }).collect()
}

fn host(r: &mut Prng) -> HostPlan {
    let rising = r.one_in(8);
    let from = r.pick(&[0, 0x1000, 0x7fff_f000, 0xffff_f000]);
    HostPlan {
        addresses: if rising { Addresses::Rising { from } } else { Addresses::Any { seed: r.next_u64() } },
        limit: if r.one_in(16) { r.below(300) } else { 4096 },
        null: if r.one_in(24) { vec![r.below(20)] } else { Vec::new() },
        odd_maps: if r.one_in(24) { vec![(r.below(20), odd_map(r))] } else { Vec::new() },
    }
}

/// A good map of another size.
pub fn odd_map(r: &mut Prng) -> OddMap {
    OddMap { address: None, bytes: Some(r.pick(&[0, 1, 0x800, 0x1001, 0x3000, 1 << 40])) }
}

fn card(r: &mut Prng) -> CardPlan {
    let times = |r: &mut Prng, limit: u32| match r.below(96) {
        0 => limit,
        1 => limit - 1,
        n if n < 16 => n as u32,
        _ => 0,
    };
    CardPlan {
        owner: if r.one_in(32) { r.next_u64() as u32 } else { 0 },
        semaphore: vec![times(r, 10_001), times(r, 10_001)],
        absent: vec![times(r, 2_000), times(r, 2_000)],
        start: start(r),
        replies: replies(r),
        commands: (0..r.pick(&[0, 0, 0, 0, 1, 2])).map(|_| (which(r), behaviour(r))).collect(),
        usual: Behaviour::after(r.pick(&[0, 0, 1, 2, 7])),
        registers: r.next_u64(),
    }
}

fn start(r: &mut Prng) -> Start {
    let polls = match r.below(64) {
        0 => NEVER,
        n if n < 3 => n,
        _ => 0,
    };
    Start { t: r.one_in(2), polls, status: r.pick(&[0, 0, 0, 1, 0xff]) }
}

fn which(r: &mut Prng) -> Which {
    use crate::registers::*;
    if r.one_in(3) {
        Which::Opcode(r.pick(&[
            QUERY_FW,
            MOD_STAT_CFG,
            QUERY_PORT,
            QUERY_FUNC,
            QUERY_ADAPTER,
            INIT_HCA,
            CLOSE_HCA,
            MAP_ICM,
            UNMAP_ICM,
            UNMAP_ICM_AUX,
            UNMAP_FA,
        ]))
    } else {
        Which::Number(r.below(50))
    }
}

fn behaviour(r: &mut Prng) -> Behaviour {
    let polls = match r.below(24) {
        0 => NEVER,
        n if n < 6 => r.pick(&[999, 1_000, 1_001, 1_500]),
        n => n - 6,
    };
    Behaviour { polls, status: r.pick(&[0, 0, 1, 2, 8, 0x50, 0xff]) }
}

fn replies(r: &mut Prng) -> Replies {
    let aux_pages = match r.below(32) {
        0 => 1 << r.below(52),
        1 => (1 << 52) - 1,
        2 => 0,
        3 => 257 + r.below(600),
        n => n,
    };
    let mut cap = cap(r);
    if r.one_in(24) {
        let at = r.pick(&[0x37, 0x49, 0x4b, 0x80, 0x83, 0x91, 0xa3]);
        cap[at] = r.next_u64() as u8;
    }
    Replies {
        fw: fw(r),
        cap,
        ports: [port(r), port(r)],
        func: port(r),
        adapter: adapter(r),
        aux_pages,
        client: r.next_u64(),
    }
}

/// A QUERY_FW reply with up to some hundred pages and any catastrophic buffer.
fn fw(r: &mut Prng) -> Vec<u8> {
    let mut fw = r.bytes(256);
    put_be16(&mut fw, 0x00, r.pick(&[0, 1, 2, 5, 64, 257, 700]));
    let revision = if r.one_in(32) { r.next_u64() as u16 } else { r.pick(&[2, 3]) };
    put_be16(&mut fw, 0x0a, revision);
    fw
}

/// A capability reply: input L, any bytes, or L with fields that mostly fit.
fn cap(r: &mut Prng) -> Vec<u8> {
    match r.below(48) {
        0..8 => input_l(),
        8 => r.bytes(4096),
        _ => fitting_cap(r),
    }
}

fn fitting_cap(r: &mut Prng) -> Vec<u8> {
    let mut cap = input_l();
    cap[0x37] = r.pick(&[1, 2]) | (r.below(16) as u8) << 4;
    let max_icm = if r.one_in(12) { 0x1_0012_1000 } else { r.pick(&[1 << 36, u64::MAX]) };
    put_be64(&mut cap, 0xa0, max_icm);
    let largest = r.pick(&[3, 3, 4, 5, 5, 6, 7, 15]);
    for at in [0x11, 0x12, 0x14, 0x19, 0x1a, 0x1e, 0x1f, 0x20, 0x22, 0x64] {
        let nibble = |r: &mut Prng| r.below(largest + 1) as u8;
        cap[at] = nibble(r) << 4 | nibble(r);
    }
    let flags_and_uars = r.bytes(9);
    cap[0x40..0x49].copy_from_slice(&flags_and_uars);
    for at in [0x70, 0x71, 0x72, 0x73, 0x7a, 0x94, 0x95, 0x96, 0x97, 0x9f] {
        cap[at] = r.next_u64() as u8;
    }
    let sys_eqs = if r.one_in(2) { 0 } else { r.below(0x1000) >> r.below(12) };
    put_be16(&mut cap, 0x26, sys_eqs as u16 | (r.below(16) as u16) << 12);
    cap[0x49] = r.pick(&[0, 0, 0, 1, 2, 3]) | r.pick(&[0, 0x40, 0xc0]);
    cap[0x4b] = r.pick(&[12, 12, 11, 0]);
    if r.one_in(2) {
        entries(r, &mut cap);
    }
    cap
}

/// Entry sizes that are powers of two.
fn entries(r: &mut Prng, cap: &mut [u8]) {
    let largest = r.pick(&[7, 8, 8, 8, 9, 16]);
    for i in 0..10 {
        put_be16(cap, 0x80 + 2 * i, 1 << r.below(largest));
    }
}

fn port(r: &mut Prng) -> Vec<u8> {
    let length = r.pick(&[0, 16, 64, 4096]);
    r.bytes(length)
}

/// A QUERY_ADAPTER reply, with both forms of the board name.
fn adapter(r: &mut Prng) -> Vec<u8> {
    let mut adapter = r.bytes(512);
    if r.one_in(2) {
        put_be16(&mut adapter, 0x20, 0x05ad);
        put_be16(&mut adapter, 0x20 + 0xde, 0x05ad);
    }
    adapter
}

fn config(r: &mut Prng) -> ConfigPlan {
    let mut header: [u32; 16] = core::array::from_fn(|_| r.next_u64() as u32);
    header[0] = 0x1003_15b3;
    let bars = bars(r);
    header[4..10].copy_from_slice(&bars);
    let chain = chain(r);
    header[13] = (header[13] & !0xfc) | chain.first().map_or(0, |c| u32::from(c.at));
    ConfigPlan { header, chain, fill: r.next_u64() }
}

fn bars(r: &mut Prng) -> [u32; 6] {
    let address = |r: &mut Prng| (r.next_u64() as u32) & !0x000f_ffff;
    let high = r.pick(&[0, 0, 1, 0x38]);
    match r.below(16) {
        0 => [address(r), address(r), address(r), 0, address(r) | 1, 0],
        1 => [address(r) | 4, high, address(r), address(r), 0, 0],
        2 => [address(r), address(r) | 4, high, address(r), 0, 0],
        3 => [address(r) | 4, high, 0x0000_000c, 0, 0, 0],
        4 => [address(r) | 4, high, address(r) | 1, 0, address(r), 0],
        _ => [address(r) | 4, high, address(r) | 12, high, 0, 0],
    }
}

/// Capabilities at shuffled places: none, a chain that ends in PCI Express, a
/// chain without it, or a loop.
fn chain(r: &mut Prng) -> Vec<Capability> {
    let mut places: Vec<u8> = (0x40..=0xfc).step_by(4).collect();
    for i in (1..places.len()).rev() {
        places.swap(i, r.below(i as u64 + 1) as usize);
    }
    let length = r.pick(&[0, 1, 2, 3, 5, 47, 48]);
    let pcie = if r.one_in(5) { None } else { Some(length.max(1) - 1) };
    let back = if r.one_in(4) { places[0] } else { 0 };
    let low_bits = r.below(4) as u8;
    let next = |i: usize| if i + 1 < length { places[i + 1] | low_bits } else { back };
    let capability =
        |i: usize| Capability { at: places[i], id: if pcie == Some(i) { 0x10 } else { 0x05 }, next: next(i) };
    (0..length).map(capability).collect()
}

fn resources(r: &mut Prng) -> ResourcePlan {
    let numbering = r.pick(&[Numbering::Registers, Numbering::Count]);
    let uar = if r.one_in(12) { 1 << 20 } else { r.pick(&[8 << 20, 32 << 20, u64::MAX]) };
    let n = r.pick(&[0, 0, 0, 0, 0, 0, 1, 2, 6]);
    let odd = (0..n).map(|_| (r.below(6) as u8, odd_resource(r))).collect();
    ResourcePlan { numbering, sizes: [1 << 20, uar, uar, uar, 1 << 12, 0], odd, plain: false }
}

/// No list, any memory range, or now and then a list that the Rust reads otherwise.
fn odd_resource(r: &mut Prng) -> Resource {
    match r.below(10) {
        0 => Resource::Failed,
        1 => Resource::Null,
        2 => Resource::List(other_list(r)),
        _ => Resource::List(one_list(r)),
    }
}

/// One memory descriptor with any range, and the end tag or nothing.
fn one_list(r: &mut Prng) -> Vec<u8> {
    let more = r.pick(&[0, 0, 0, 1, 2, 57]);
    let mut list = Descriptor { more, ..Descriptor::memory(r.next_u64(), r.next_u64()) }.bytes();
    list.extend(r.pick(&ENDS));
    list
}

/// An I/O range ahead, an offset, an unknown tag, or a list without a range.
fn other_list(r: &mut Prng) -> Vec<u8> {
    let (offset, kind) = (r.next_u64(), r.pick(&[IO, IO, 2, 0xff]));
    let memory = Descriptor { offset, ..Descriptor::memory(r.next_u64(), r.next_u64()) };
    let ahead = Descriptor { kind, ..memory };
    match r.below(4) {
        0 => END.into(),
        1 => r.bytes(48).into_iter().map(|b| b & 0x7f).collect(),
        2 => [memory.bytes(), END.into()].concat(),
        _ => [ahead.bytes(), memory.bytes(), END.into()].concat(),
    }
}
