//! Pages, blocks and page mailboxes.

use oracle::{leaves, parts};
use world::prng::Prng;

use crate::ffi::{self, Answer, Rest};
use crate::{Input, Leaf};

pub const LEAVES: &[Leaf] = &[
    Leaf { name: "pages_of", input: size, rust: pages_of, proved: |i| Answer::words(&ffi::pages_of(i.words[0])) },
    Leaf {
        name: "accept",
        input: buffer,
        rust: |i| Some(Answer::words(&[accept(i.words[0], i.words[1])])),
        proved: |i| Answer::words(&[ffi::accept(i.words[0], i.words[1]).into()]),
    },
    Leaf { name: "blocks", input: range, rust: blocks, proved: proved_blocks },
    Leaf { name: "cut", input: rest, rust: cut, proved: proved_cut },
    Leaf { name: "fill", input: pages, rust: fill, proved: proved_fill },
];

const PAGE: u64 = 4096;
/// Document 01's number for an address or a size that cannot be used.
const REFUSED: u64 = 18;
/// The largest exponent of a block.
const LARGEST: u32 = 63;
/// The most blocks of a range that are looked at.
const BLOCKS: usize = 300;
/// The blocks of a mailbox.
const CAPACITY: usize = 256;
/// The pages that a host grants for a buffer.
const GRANTED: u64 = 8;

/// A number of any size, often next to a power of two.
fn number(r: &mut Prng) -> u64 {
    let power = 1u64 << r.below(64);
    match r.below(6) {
        0 => power,
        1 => power - 1,
        2 => power.wrapping_add(r.below(8193)),
        3 => u64::MAX - r.below(8193),
        4 => r.below(20000),
        _ => r.next_u64() >> r.below(64),
    }
}

fn size(r: &mut Prng) -> Input {
    Input::words(&[number(r)])
}

/// The pages that `DmaBuf::new` asks for; above 2^64 − 4,096 bytes document 01 refuses with 18. The host grants a few
/// pages only; those are mapped whole, and the buffer has as many.
fn pages_of(i: &Input) -> Option<Answer> {
    let bytes = i.words[0];
    if bytes > u64::MAX - (PAGE - 1) {
        return Some(Answer::words(&[REFUSED, 0]));
    }
    let asked = parts::buffer(bytes, GRANTED);
    let granted = asked.pages <= GRANTED;
    assert_eq!(asked.given, granted.then_some(asked.pages));
    assert_eq!(asked.mapped, granted.then(|| asked.pages * PAGE));
    Some(Answer::words(&[0, asked.pages]))
}

/// A device address and a number of pages.
fn buffer(r: &mut Prng) -> Input {
    let dev = if r.one_in(4) { number(r) } else { number(r) / PAGE * PAGE };
    let pages = match r.below(4) {
        0 => number(r),
        1 => ((1u128 << 64) - u128::from(dev)).div_ceil(u128::from(PAGE)) as u64,
        2 => (u64::MAX - dev) / PAGE + r.below(3),
        _ => number(r) / PAGE,
    };
    Input::words(&[dev, pages])
}

/// Added by document 01: a page multiple whose end is at most 2^64, and no more than 2^64 − 4,096 bytes.
fn accept(dev: u64, pages: u64) -> u64 {
    let bytes = u128::from(pages) * u128::from(PAGE);
    if dev.is_multiple_of(PAGE) && ends_within(dev, bytes) {
        0
    } else {
        REFUSED
    }
}

fn virt(i: &Input) -> Option<u64> {
    (i.words[0] != 0).then_some(i.words[1])
}

/// An address of any alignment from a page on.
fn address(r: &mut Prng) -> u64 {
    number(r) / PAGE * PAGE
}

/// Whether there is a card address, that address, the device address and the bytes. Many ranges end at 2^64 or near it,
/// and some addresses are 0.
fn range(r: &mut Prng) -> Input {
    let has = r.below(2);
    let (mut v, mut p) = (address(r), address(r));
    if r.one_in(6) {
        v = 0;
    }
    if r.one_in(6) {
        p = 0;
    }
    if r.one_in(12) {
        p += r.below(PAGE);
    }
    let size = match r.below(6) {
        0 => 0u64.wrapping_sub(p),
        1 => 0u64.wrapping_sub(p).wrapping_add(r.below(3)).wrapping_sub(1),
        2 => 0u64.wrapping_sub(v),
        3 => r.below(300) * PAGE,
        4 => r.below(20000),
        _ => number(r),
    };
    Input::words(&[has, v, p, size])
}

fn ends_within(at: u64, size: u128) -> bool {
    u128::from(at) + size <= 1 << 64 && size <= (1 << 64) - u128::from(PAGE)
}

/// The refusal's number, or 0 and the blocks, as many as are looked at. The Rust is asked about page multiples and about
/// ranges of at most 2^64 − 4,096 bytes that end at 2^64 or below; for others document 01 has 18.
fn blocks(i: &Input) -> Option<Answer> {
    let (p, size) = (i.words[2], i.words[3]);
    if p % PAGE != 0 || !ends_within(p, size.into()) || !ends_within(virt(i).unwrap_or(0), size.into()) {
        return Some(Answer::words(&[REFUSED]));
    }
    let mut words = vec![0];
    for b in leaves::blocks(virt(i), p, size).take(BLOCKS) {
        words.extend([b.virt, b.phys, b.log.into()]);
    }
    Some(Answer { words, bytes: Vec::new() })
}

fn proved_blocks(i: &Input) -> Answer {
    let mut rest = match ffi::blocks(virt(i), i.words[2], i.words[3]) {
        Ok(rest) => rest,
        Err(number) => return Answer::words(&[number]),
    };
    let mut words = vec![0];
    while let Some((block, behind)) = ffi::cut(LARGEST, rest) {
        words.extend(block);
        rest = behind;
        if words.len() > 3 * BLOCKS {
            break;
        }
    }
    Answer { words, bytes: Vec::new() }
}

/// What is left of a range, of any alignment; a device address of 0 and a size near 2^64 are the extremes.
fn rest(r: &mut Prng) -> Input {
    let mut i = range(r);
    if r.one_in(2) {
        i.words[1] = number(r);
        i.words[2] = number(r);
    }
    i
}

fn fits(at: u64, left: u64) -> bool {
    u128::from(at) + u128::from(left) <= 1 << 64
}

/// The first block of the Rust, of what is left of any range that ends at 2^64 or below.
fn cut(i: &Input) -> Option<Answer> {
    let (p, size) = (i.words[2], i.words[3]);
    if !fits(p, size) || !fits(virt(i).unwrap_or(0), size) {
        return None;
    }
    let block = leaves::blocks(virt(i), p, size).next();
    Some(block.map_or(Answer::words(&[0]), |b| Answer::words(&[1, b.virt, b.phys, b.log.into()])))
}

fn proved_cut(i: &Input) -> Answer {
    let block = ffi::cut(LARGEST, Rest { virt: virt(i), phys: i.words[2], left: i.words[3] });
    block.map_or(Answer::words(&[0]), |(b, _)| Answer::words(&[1, b[0], b[1], b[2]]))
}

/// A buffer of up to 700 pages, which make up to three mailboxes.
fn pages(r: &mut Prng) -> Input {
    let any = 1 + r.below(700);
    let pages = r.pick(&[1, 2, 3, 5, 255, 256, 257, 511, 512, 513, any]);
    let room = |r: &mut Prng| address(r).min((u64::MAX - pages * PAGE) / PAGE * PAGE);
    let (v, p) = match r.below(3) {
        // Addresses that are odd and even multiples of a page: each page is a block.
        0 => (room(r) | PAGE, room(r) / (2 * PAGE) * (2 * PAGE)),
        _ => (room(r), room(r)),
    };
    let (v, p) = (v.min(u64::MAX / 2 + 1), p.min(u64::MAX / 2 + 1));
    Input::words(&[r.below(2), v, p, pages])
}

/// The entries of each mailbox, and their bytes.
fn fill(i: &Input) -> Option<Answer> {
    let all = leaves::mailboxes(virt(i), i.words[2], i.words[3] as usize).ok()?;
    let words = all.iter().map(|m| m.entries.into()).collect();
    let bytes = all.into_iter().flat_map(|m| m.page).collect();
    Some(Answer { words, bytes })
}

fn proved_fill(i: &Input) -> Answer {
    let mut answer = Answer::default();
    let mut rest = Rest { virt: virt(i), phys: i.words[2], left: i.words[3] * PAGE };
    while rest.left != 0 {
        // What stood in the mailbox before must not show.
        let mut inbox = vec![0xa5; PAGE as usize];
        let (entries, behind) = ffi::fill(&mut inbox, LARGEST, rest, CAPACITY).expect("a mailbox of 4,096 bytes");
        answer.words.push(entries);
        answer.bytes.extend(inbox);
        rest = behind;
    }
    answer
}
