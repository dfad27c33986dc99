//! Where the parts of a session's bytes begin, in words of eight bytes, for tests that damage them. The image is the
//! library's own: no caller looks into it.

use session::abi::STATE;
use world::prng::Prng;

/// All words, and those of the head, which every answer tests that does not go on with a command.
pub const WORDS: usize = STATE / 8;
pub const HEAD: usize = 45;
/// How many ranges are mapped, at most 14; behind it how many buffers are lent, at most 64.
pub const RANGES: usize = 21;
pub const LENDS: usize = 22;
/// The slots of the books: the first, how many there are, and the words of one: held, card address, handle, device address,
/// pages, mapped.
pub const SLOTS: usize = 153;
pub const SLOT_COUNT: usize = 82;
pub const SLOT: usize = 6;
pub const MAPPED: usize = 5;

/// The words are those of so many slots behind what stands before them.
const _: () = assert!(SLOTS + SLOT_COUNT * SLOT == WORDS);

/// Word `at` becomes this.
pub fn put(state: &mut [u8], at: usize, word: u64) {
    state[8 * at..8 * at + 8].copy_from_slice(&word.to_le_bytes());
}

/// The books are damaged: a count at its bound or above, or a slot that is held or not, mapped or not, or neither.
pub fn damage_books(r: &mut Prng, state: &mut [u8]) {
    let any = r.next_u64();
    let slot = SLOTS + r.below(SLOT_COUNT as u64) as usize * SLOT;
    match r.below(4) {
        0 => put(state, RANGES, r.pick(&[0, 1, 13, 14, 15, 64, any])),
        1 => put(state, LENDS, r.pick(&[0, 1, 63, 64, 65, 256, any])),
        2 => put(state, slot + MAPPED, r.pick(&[0, 1, 2, 1 << 8, 1 << 63, any])),
        _ => {
            put(state, slot, r.pick(&[0, 1, 2, any]));
            put(state, slot + 1 + r.below(SLOT as u64 - 1) as usize, r.pick(&[0, 1, any, any & !0xfff, u64::MAX]));
        }
    }
}
