//! Openings of the Rust, one after the other on a card of this thread.

use oracle::openings::{Openings, Shown};
use world::results::Outcome;

/// The pages that one opening may have together: 16 MB.
pub const PAGES: u64 = 4096;

thread_local! {
    static CARD: Openings = Openings::new(PAGES);
}

/// An opening with these replies to QUERY_DEV_CAP and QUERY_FUNC, the size of the UAR BAR known or not. Nothing where the
/// tables need more pages than the host has.
pub fn open(cap: &[u8], func: &[u8], uar_size: Option<u64>) -> Option<Outcome<Shown>> {
    CARD.with(|card| card.open(cap, func, uar_size))
}
