//! The card's replies, decoded.

use oracle::{leaves, parts};
use world::plan::{input_l, put_be16};
use world::prng::Prng;
use world::results::{Capabilities, Outcome, Refusal, Stop};

use crate::ffi::{self, Answer};
use crate::{openings, Input, Leaf};

pub const LEAVES: &[Leaf] = &[
    Leaf {
        name: "dev_cap",
        input: capability,
        rust: dev_cap,
        proved: |i| Answer::words(&ffi::dev_cap(&i.bytes, bar(i))),
    },
    Leaf {
        name: "flag",
        input: |r| Input::words(&[r.next_u64(), r.below(64)]),
        rust: |i| Some(Answer::words(&[parts::flag(i.words[0], i.words[1] as u32).into()])),
        proved: |i| Answer::words(&[ffi::flag(i.words[0], i.words[1] as u8).into()]),
    },
    Leaf {
        name: "b0",
        input: |r| Input::words(&[r.next_u64()]),
        rust: |i| Some(Answer::words(&[parts::b0(i.words[0]).into()])),
        proved: |i| Answer::words(&[ffi::b0(i.words[0]).into()]),
    },
    Leaf {
        name: "query_fw",
        input: firmware,
        rust: query_fw,
        proved: |i| Answer::words(&ffi::query_fw(&i.bytes, i.words[0] as u8)),
    },
    Leaf {
        name: "query_port",
        input: port,
        rust: query_port,
        proved: |i| Answer::words(&ffi::query_port(&i.bytes, i.words[0] as u8)),
    },
    Leaf {
        name: "query_func",
        input: |r| reply(r, FUNC),
        rust: query_func,
        proved: |i| Answer::words(&ffi::query_func(&i.bytes)),
    },
];

/// The bytes that each reply must have.
pub const CAP: usize = 168;
pub const FW: usize = 0x3d;
pub const PORT: usize = 0x28;
pub const FUNC: usize = 0x0c;

/// Of input L, what decides most: where counts, ports, UAR field, page exponent and EQs stand.
const PLACES: [usize; 14] = [0x12, 0x14, 0x1a, 0x1e, 0x1f, 0x20, 0x22, 0x26, 0x27, 0x37, 0x48, 0x49, 0x4b, 0x64];

/// An entry size: mostly a power of two, sometimes none.
fn entry(r: &mut Prng) -> u16 {
    match r.below(12) {
        0 => 0,
        1 => r.next_u64() as u16,
        2 => 3 << r.below(14),
        _ => 1 << r.below(16),
    }
}

/// A capability reply around input L: some fields and entry sizes changed, sometimes all bytes.
pub fn capability_reply(r: &mut Prng) -> Vec<u8> {
    let mut l = if r.one_in(10) { r.bytes(CAP) } else { input_l() };
    for _ in 0..r.below(8) {
        l[r.pick(&PLACES)] = r.next_u64() as u8;
    }
    let odd = r.one_in(3);
    for k in 0..10 {
        if r.one_in(2) {
            let e = if odd { entry(r) } else { 1 << r.below(13) };
            put_be16(&mut l, 0x80 + 2 * k, e);
        }
    }
    if !r.one_in(8) {
        (l[0x37], l[0x4b], l[0x49]) = (1 + r.below(2) as u8, r.below(13) as u8, r.below(44) as u8);
    }
    for b in &mut l[0xa0..CAP] {
        if !r.one_in(3) {
            *b = 0xff;
        }
    }
    l.extend(r.pick(&[&[][..], &[0xff; 88], &[1]]));
    l
}

/// Whether the size of the UAR BAR is known, and the size, near the area of the reply.
fn capability(r: &mut Prng) -> Input {
    let bytes = capability_reply(r);
    Input { words: bar_words(r, &bytes), bytes }
}

pub fn bar_words(r: &mut Prng, reply: &[u8]) -> Vec<u64> {
    let area = 1u64.checked_shl(u32::from(reply[0x49] & 63) + 20).unwrap_or(0);
    let any = r.next_u64();
    let size = r.pick(&[area, area, area, area.wrapping_add(1), area.wrapping_sub(1), 0, u64::MAX, any]);
    vec![r.below(2), size]
}

pub fn bar(i: &Input) -> Option<u64> {
    (i.words[0] != 0).then_some(i.words[1])
}

/// A reply of at least `n` bytes.
fn reply(r: &mut Prng, n: usize) -> Input {
    let more = r.pick(&[0, 0, 1, 64]);
    Input { words: vec![r.below(256)], bytes: r.bytes(n + more) }
}

fn firmware(r: &mut Prng) -> Input {
    let mut i = reply(r, FW);
    if !r.one_in(4) {
        put_be16(&mut i.bytes, 0x0a, r.pick(&[2, 3, 3, 1, 4, 0x0203]));
    }
    i
}

fn port(r: &mut Prng) -> Input {
    reply(r, PORT)
}

/// Number and value of a refusal.
pub fn code(refusal: &Refusal) -> [u64; 2] {
    [refusal.number.into(), refusal.values.first().copied().unwrap_or(0)]
}

/// The refusal behind an outcome; a panic has no place here.
pub fn refusal<T>(outcome: &Outcome<T>) -> Option<&Refusal> {
    match outcome {
        Ok(_) => None,
        Err(Stop::Refused(r)) => Some(r),
        Err(Stop::Outside(why)) => panic!("{why}"),
    }
}

/// The fields in the order of the leaf's words. The exponent of the smallest page is in no field of the Rust.
fn cap_words(c: &Capabilities, log_min_page: u8) -> Vec<u64> {
    let mut words = vec![
        c.rsvd_qps,
        c.rsvd_srqs,
        c.rsvd_cqs,
        c.rsvd_eqs,
        c.max_eqs,
        c.rsvd_mtts,
        c.rsvd_mpts,
        c.rsvd_uars,
        c.rsvd_pds,
        c.num_sys_eqs,
        c.ports.into(),
        c.log_max_qp_wqes.into(),
        c.log_max_cqes.into(),
        log_min_page.into(),
        c.flags,
        c.flags2.into(),
        c.bmme.into(),
        c.eth_prot_ctrl.into(),
        c.eth_backpl_an_rep.into(),
        c.uar_bytes,
        c.max_icm,
    ];
    words.extend(c.entry);
    words
}

fn dev_cap(i: &Input) -> Option<Answer> {
    let outcome = leaves::dev_cap(&i.bytes, bar(i));
    let mut words = refusal(&outcome).map_or([0, 0], code).to_vec();
    words.extend(outcome.map_or(vec![0; 32], |c| cap_words(&c, i.bytes[0x4b])));
    Some(Answer { words, bytes: Vec::new() })
}

fn query_fw(i: &Input) -> Option<Answer> {
    let fw = leaves::query_fw(&i.bytes, i.words[0] as u8).expect("no panic");
    let [major, minor, subminor, rev, ppf, log_cmds] = fw.version.try_into().expect("six numbers");
    let [pages, bar, offset, dwords] = fw.area.try_into().expect("four numbers");
    assert_eq!((fw.catas.0.into(), fw.catas.1), (bar, offset), "the console and the driver agree");
    let mut words = fw.refusal.as_ref().map_or([0, 0], code).to_vec();
    words.extend([pages, major, subminor, minor, ppf, rev, log_cmds, offset, dwords, bar]);
    Some(Answer { words, bytes: Vec::new() })
}

fn query_port(i: &Input) -> Option<Answer> {
    let p = leaves::port_info(&i.bytes, i.words[0] as u8);
    let mut words = vec![0, p.num.into(), p.link_up.into(), p.b0.into(), p.mtu_cap.into(), p.log_macs.into()];
    words.extend(p.mac.map(u64::from));
    words.extend([
        p.autoneg.into(),
        p.an_complete.into(),
        p.speed.into(),
        p.xcvr.into(),
        p.wavelength.into(),
        p.xcvr_code,
    ]);
    Some(Answer { words, bytes: Vec::new() })
}

/// What an opening says of EQs and UARs, on a card with input L, so many system EQs and one, and room for any total.
fn query_func(i: &Input) -> Option<Answer> {
    let mut l = input_l();
    put_be16(&mut l, 0x26, 1 + i.words[0] as u16);
    l[0xa0] = 0xff;
    let cap = openings::open(&l, &i.bytes, None)?.expect("a reply that is not refused").opened.cap;
    Some(Answer::words(&[0, cap.rsvd_eqs, cap.max_eqs, cap.rsvd_uars]))
}
