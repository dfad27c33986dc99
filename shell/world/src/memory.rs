//! Pages of host memory that a driver writes through a pointer while the card
//! reads and writes them too.

use std::cell::Cell;

use crate::PAGE;

const BYTES: usize = PAGE as usize;
/// UEFI hands out pages as they are; a driver's zeroing must show.
const STALE: u8 = 0xa5;

/// One page, at a page address. The cells allow writes from both sides.
#[repr(C, align(4096))]
struct Page([Cell<u8>; BYTES]);

impl Page {
    fn zeroed() -> Page {
        Page([const { Cell::new(0) }; BYTES])
    }
}

/// A run of pages, zeroed when made.
pub struct Pages(Vec<Page>);

impl Pages {
    pub fn zeroed(count: u64) -> Pages {
        Pages((0..count).map(|_| Page::zeroed()).collect())
    }

    pub fn count(&self) -> u64 {
        self.0.len() as u64
    }

    /// The first byte, writable as long as `self` lives: every byte is a cell.
    pub fn as_ptr(&self) -> *mut u8 {
        self.0.as_ptr().cast::<u8>().cast_mut()
    }

    /// The pages as they may be handed out: with anything in them.
    pub fn stale(&self) -> &Pages {
        self.0.iter().flat_map(|p| &p.0).for_each(|b| b.set(STALE));
        self
    }

    /// Up to `n` bytes from `offset`, fewer at the end of the run.
    pub fn read(&self, offset: u64, n: u64) -> Vec<u8> {
        let mut bytes = Vec::new();
        for part in self.parts(offset, n) {
            bytes.extend(part.iter().map(Cell::get));
        }
        bytes
    }

    /// Write `bytes` from `offset` on; what passes the end is dropped.
    pub fn write(&self, offset: u64, mut bytes: &[u8]) {
        for part in self.parts(offset, bytes.len() as u64) {
            let (now, behind) = bytes.split_at(part.len());
            part.iter().zip(now).for_each(|(cell, b)| cell.set(*b));
            bytes = behind;
        }
    }

    /// The cells from `offset` on, `n` at most, page by page.
    fn parts(&self, offset: u64, n: u64) -> impl Iterator<Item = &[Cell<u8>]> {
        let end = (offset + n).min(self.count() * PAGE);
        let mut at = offset;
        std::iter::from_fn(move || {
            let left = end.checked_sub(at).filter(|left| *left > 0)?;
            let from = at % PAGE;
            let to = (from + left).min(PAGE);
            let part = &self.0[(at / PAGE) as usize].0[from as usize..to as usize];
            at += to - from;
            Some(part)
        })
    }
}
