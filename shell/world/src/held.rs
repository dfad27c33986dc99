//! What the card holds by the card rules of document 01.

use crate::host::Span;
use crate::PAGE;

/// One block of a page mailbox: card address, and where it lies.
#[derive(Clone, Copy, PartialEq, Eq, Debug)]
pub struct Block {
    pub virt: u64,
    pub span: Span,
}

/// The first `count` blocks of a page mailbox.
pub fn blocks(inbox: &[u8], count: u32) -> Vec<Block> {
    let be64 = |b: &[u8]| b.iter().fold(0u64, |v, x| v << 8 | u64::from(*x));
    let entry = |e: &[u8]| {
        let low = be64(&e[8..]);
        let exponent = 12 + (low % PAGE).min(51);
        Block { virt: be64(&e[..8]), span: Span { start: low - low % PAGE, bytes: 1 << exponent } }
    };
    inbox.chunks_exact(16).take(count as usize).map(entry).collect()
}

/// The blocks of each area.
#[derive(Clone, PartialEq, Eq, Debug, Default)]
pub struct Held {
    pub fa: Vec<Block>,
    pub aux: Vec<Block>,
    pub icm: Vec<Block>,
    /// INIT_HCA succeeded and CLOSE_HCA did not: lent pages may be used.
    pub open: bool,
}

impl Held {
    pub fn has(&self, span: Span) -> bool {
        [&self.fa, &self.aux, &self.icm].into_iter().flatten().any(|b| b.span.meets(span))
    }

    /// UNMAP_ICM: the card addresses from `virt` on, `pages` pages.
    pub fn drop_icm(&mut self, virt: u64, pages: u32) {
        let end = virt + u64::from(pages) * PAGE;
        let cut = |b: &Block| [part(b, 0, virt), part(b, end, u64::MAX)];
        self.icm = self.icm.iter().flat_map(cut).flatten().collect();
    }

    /// The device address behind a card address.
    pub fn icm_at(&self, virt: u64) -> Option<u64> {
        let behind = |b: &Block| virt.checked_sub(b.virt).filter(|o| *o < b.span.bytes).map(|o| b.span.start + o);
        self.icm.iter().find_map(behind)
    }
}

/// The part of a block whose card addresses lie in `from..to`.
fn part(b: &Block, from: u64, to: u64) -> Option<Block> {
    let start = b.virt.max(from);
    let end = b.virt.saturating_add(b.span.bytes).min(to);
    (start < end)
        .then(|| Block { virt: start, span: Span { start: b.span.start + (start - b.virt), bytes: end - start } })
}
