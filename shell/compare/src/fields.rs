//! Fields of a slice. The Rust has the big-endian ones of 1, 2, 4 and 8 bytes, in `Mem`; the little-endian ones and the
//! other widths are compared with the bytes themselves.

use oracle::parts;
use world::prng::Prng;

use crate::ffi::{self, Answer, Width};
use crate::{Input, Leaf};

const fn leaf(
    name: &'static str,
    input: fn(&mut Prng) -> Input,
    rust: fn(&Input) -> Option<Answer>,
    proved: fn(&Input) -> Answer,
) -> Leaf {
    Leaf { name, input, rust, proved }
}

/// The reads, then the writes: a field of any width, and those of one width, each with what it is compared with.
macro_rules! reads_and_writes {
    ($(($name:literal, $set:literal, $width:ident, $read:ident, $write:ident, $bytes:literal))*) => {
        &[
            leaf("field", any_field, |i| Some(any_read(i)), proved_any_read),
            $(leaf($name, place, |i| $read(i, $bytes), |i| proved_read(i, Width::$width)),)*
            leaf("set_field", any_field, |i| Some(any_write(i)), proved_any_write),
            $(leaf($set, place, |i| $write(i, $bytes), |i| proved_write(i, Width::$width)),)*
            leaf("zero", place, |i| Some(zeroed(i, parts::zero)), |i| zeroed(i, ffi::zero)),
        ]
    };
}

pub const LEAVES: &[Leaf] = reads_and_writes! {
    ("byte", "set_byte", Byte, mem_read, mem_write, 1)
    ("be16", "set_be16", Be16, mem_read, mem_write, 2)
    ("be32", "set_be32", Be32, mem_read, mem_write, 4)
    ("be64", "set_be64", Be64, mem_read, mem_write, 8)
    ("le16", "set_le16", Le16, little_read, little_write, 2)
    ("le64", "set_le64", Le64, little_read, little_write, 8)
};

/// A slice of 0 to 40 bytes.
fn slice(r: &mut Prng) -> Vec<u8> {
    let n = r.below(41) as usize;
    r.bytes(n)
}

/// An offset near the end of the slice, or one that no slice has.
fn offset(r: &mut Prng, len: usize) -> u64 {
    match r.below(8) {
        0 => u64::MAX - r.below(10),
        1 => (1 << 63) - 5 + r.below(10),
        2 => r.next_u64() >> r.below(64),
        _ => (len as u64 + 2).saturating_sub(r.below(len as u64 + 3)),
    }
}

/// Offset and value.
fn place(r: &mut Prng) -> Input {
    let bytes = slice(r);
    Input { words: vec![offset(r, bytes.len()), r.next_u64()], bytes }
}

/// Byte order, offset, width and value.
fn any_field(r: &mut Prng) -> Input {
    let bytes = slice(r);
    let width = if r.one_in(8) { u64::MAX - r.below(10) } else { r.below(12) };
    Input { words: vec![r.below(2), offset(r, bytes.len()), width, r.next_u64()], bytes }
}

/// Where the field lies, if it is within the slice.
fn within(bytes: &[u8], off: u64, width: u64) -> Option<std::ops::Range<usize>> {
    let end = off.checked_add(width).filter(|end| *end <= bytes.len() as u64)?;
    Some(off as usize..end as usize)
}

/// Document 01 refuses with 21 what passes the end; in the Rust that is a panic.
fn short() -> Answer {
    Answer::words(&[ffi::SHORT.into(), 0])
}

fn mem_read(i: &Input, width: usize) -> Option<Answer> {
    let mut s = i.bytes.clone();
    let read = |at: std::ops::Range<usize>| Answer::words(&[0, parts::read(&mut s, at.start, width)]);
    Some(within(&i.bytes, i.words[0], width as u64).map_or_else(short, read))
}

fn little(bytes: &[u8]) -> u64 {
    bytes.iter().rev().fold(0, |v, b| v << 8 | u64::from(*b))
}

fn little_read(i: &Input, width: u64) -> Option<Answer> {
    let at = within(&i.bytes, i.words[0], width);
    Some(at.map_or_else(short, |at| Answer::words(&[0, little(&i.bytes[at])])))
}

fn proved_read(i: &Input, width: Width) -> Answer {
    Answer::words(&ffi::read(&i.bytes, width, i.words[0] as usize))
}

/// A field of up to 8 bytes; a wider one is 21.
fn any_read(i: &Input) -> Answer {
    let Some(at) = within(&i.bytes, i.words[1], i.words[2]).filter(|at| at.len() <= 8) else {
        return short();
    };
    let mut field = i.bytes[at].to_vec();
    if i.words[0] == 0 {
        field.reverse();
    }
    Answer::words(&[0, little(&field)])
}

fn proved_any_read(i: &Input) -> Answer {
    Answer::words(&ffi::field(&i.bytes, i.words[0] != 0, i.words[1] as usize, i.words[2] as usize))
}

fn mem_write(i: &Input, width: usize) -> Option<Answer> {
    let mut s = i.bytes.clone();
    let number = match within(&i.bytes, i.words[0], width as u64) {
        Some(at) => {
            parts::write(&mut s, at.start, width, i.words[1]);
            0
        }
        None => ffi::SHORT,
    };
    Some(Answer { words: vec![number.into()], bytes: s })
}

/// The last bytes of a number in a field of any width, the lowest first.
fn put_little(field: &mut [u8], v: u64) {
    for (k, b) in field.iter_mut().enumerate() {
        *b = v.checked_shr(8 * k as u32).unwrap_or(0) as u8;
    }
}

fn little_write(i: &Input, width: u64) -> Option<Answer> {
    Some(any_write(&Input { words: vec![1, i.words[0], width, i.words[1]], bytes: i.bytes.clone() }))
}

fn proved_write(i: &Input, width: Width) -> Answer {
    let mut s = i.bytes.clone();
    let number = ffi::write(&mut s, width, i.words[0] as usize, i.words[1]);
    Answer { words: vec![number.into()], bytes: s }
}

fn any_write(i: &Input) -> Answer {
    let mut s = i.bytes.clone();
    let number = match within(&i.bytes, i.words[1], i.words[2]) {
        Some(at) => {
            put_little(&mut s[at.clone()], i.words[3]);
            if i.words[0] == 0 {
                s[at].reverse();
            }
            0
        }
        None => ffi::SHORT,
    };
    Answer { words: vec![number.into()], bytes: s }
}

fn proved_any_write(i: &Input) -> Answer {
    let mut s = i.bytes.clone();
    let number = ffi::set_field(&mut s, i.words[0] != 0, i.words[1] as usize, i.words[2] as usize, i.words[3]);
    Answer { words: vec![number.into()], bytes: s }
}

/// The slice once `zero` has had it.
fn zeroed(i: &Input, zero: impl FnOnce(&mut [u8])) -> Answer {
    let mut s = i.bytes.clone();
    zero(&mut s);
    Answer { words: Vec::new(), bytes: s }
}
