//! The comparisons that put tables in order. The Rust sorts by its library and counts none, so this is written from
//! document 02, Req 04: "Taken by index, a table is compared backwards with those it passes and one more, if any."

use world::results::Layout;

/// For tables of these bytes, by index. A table passes those before it that have fewer bytes; if any of them is left, one
/// more comparison stops it.
pub fn comparisons(bytes: &[u64]) -> u64 {
    let of = |n: usize| {
        let passed = bytes[..n].iter().filter(|b| **b < bytes[n]).count();
        passed + usize::from(passed < n)
    };
    (0..bytes.len()).map(|n| of(n) as u64).sum()
}

pub fn of_layout(l: &Layout) -> u64 {
    comparisons(&l.tables.map(|t| t.bytes))
}
