//! What a session holds.

use core::array;

use crate::abi::Words;

/// Pages that were handed over: their handle, where the device sees them, and how many there are.
#[derive(Clone, Copy, PartialEq, Eq, Debug, Default)]
pub struct Buffer {
    /// The number that `Bus::allocate` gave.
    pub handle: u64,
    /// The device address that `Bus::map` gave; 1 where it is not mapped.
    pub address: u64,
    /// How many pages of 4,096 bytes.
    pub pages: u64,
}

impl Buffer {
    /// The address of a buffer that is not mapped; no page has it.
    pub const NOT_MAPPED: u64 = 1;

    /// It is mapped. One that is being made, or that was unmapped and is not yet freed, is held and not mapped.
    pub fn mapped(&self) -> bool {
        self.address != Buffer::NOT_MAPPED
    }
}

/// A range of ICM space: its card address, and the buffer behind it.
#[derive(Clone, Copy, PartialEq, Eq, Debug, Default)]
pub struct Range {
    /// Its first card address.
    pub virt: u64,
    /// What was mapped there.
    pub buffer: Buffer,
}

/// The place of the MTT table among the ranges: it is mapped behind the four cMPT ranges and EQC.
const MTT: usize = 5;

/// The books: what the session holds, and how the command register stands. A buffer stands in them from the good answer to
/// its allocate to the answer to its free, at any question. Of a session that ended with `Closing::Kept` they name everything
/// that the card may still use.
#[derive(Clone, PartialEq, Eq, Debug)]
pub struct Books {
    /// INIT_HCA was good.
    pub started: bool,
    /// The attributes before the opening.
    pub original: u64,
    /// The T of the next command.
    pub toggle: bool,
    /// A command may still run: its end was not seen.
    pub running: bool,
    /// The closing will reset the card.
    pub broken: bool,
    /// A quiesce has begun.
    pub silent: bool,
    /// The catastrophic buffer: BAR and offset.
    pub catas: Option<(u8, u64)>,
    /// The pages behind the inbox.
    pub inbox: Option<Buffer>,
    /// The pages behind the outbox.
    pub outbox: Option<Buffer>,
    /// The firmware area.
    pub fa: Option<Buffer>,
    /// The auxiliary area of the ICM.
    pub aux: Option<Buffer>,
    ranges: [Range; 14],
    range_count: usize,
    lent: [Buffer; 64],
    lent_count: usize,
}

impl Books {
    /// The ICM ranges that are held, in mapping order. A closing frees the first of them first.
    pub fn ranges(&self) -> &[Range] {
        &self.ranges[..self.range_count]
    }

    /// The lent buffers that are held, in lending order. A closing frees the first of them first.
    pub fn lent(&self) -> &[Buffer] {
        &self.lent[..self.lent_count]
    }

    /// The memory behind the MTT table: the sixth range. None where it is not mapped. While a closing frees ranges, of which
    /// the first are gone then, it is another one.
    pub fn mtt_mem(&self) -> Option<Buffer> {
        self.ranges().get(MTT).map(|r| r.buffer).filter(Buffer::mapped)
    }

    /// Every buffer that is held.
    pub fn buffers(&self) -> impl Iterator<Item = Buffer> + '_ {
        let single = [self.inbox, self.outbox, self.fa, self.aux].into_iter().flatten();
        single.chain(self.ranges().iter().map(|r| r.buffer)).chain(self.lent().iter().copied())
    }

    pub(crate) fn of(w: &Words) -> Option<Books> {
        Some(Books {
            started: w.flag(2),
            original: w.at(3),
            toggle: w.flag(4),
            running: w.flag(5),
            broken: w.flag(6),
            silent: w.flag(7),
            catas: catas(w)?,
            inbox: held(w, 11),
            outbox: held(w, 15),
            fa: held(w, 19),
            aux: held(w, 23),
            ranges: array::from_fn(|i| Range { virt: w.at(32 + 4 * i), buffer: buffer(w, 33 + 4 * i) }),
            range_count: count(w.at(0), 14)?,
            lent: array::from_fn(|i| buffer(w, 88 + 3 * i)),
            lent_count: count(w.at(1), 64)?,
        })
    }
}

fn count(word: u64, most: usize) -> Option<usize> {
    usize::try_from(word).ok().filter(|n| *n <= most)
}

fn catas(w: &Words) -> Option<Option<(u8, u64)>> {
    let bar = w.at(9).try_into().ok()?;
    Some((!w.flag(8)).then_some((bar, w.at(10))))
}

fn buffer(w: &Words, at: usize) -> Buffer {
    Buffer { handle: w.at(at), address: w.at(at + 1), pages: w.at(at + 2) }
}

fn held(w: &Words, at: usize) -> Option<Buffer> {
    w.flag(at).then(|| buffer(w, at + 1))
}

#[cfg(test)]
mod tests {
    use super::*;
    use crate::abi;

    /// The words of books that hold an inbox, six ranges and a lent buffer, the sixth range and the lent one not mapped.
    fn words() -> [u64; abi::BOOKS / 8] {
        let mut w = [0; abi::BOOKS / 8];
        (w[0], w[1]) = (6, 1);
        w[11..15].copy_from_slice(&[1, 7, 0x1000, 1]);
        for i in 0..6 {
            let address = if i == 5 { 1 } else { 0x2000 };
            w[32 + 4 * i..36 + 4 * i].copy_from_slice(&[i as u64, 8, address, 2]);
        }
        w[88..91].copy_from_slice(&[9, 1, 3]);
        w
    }

    #[test]
    fn a_buffer_that_is_not_mapped_is_held() {
        let words = words();
        let bytes: [u8; abi::BOOKS] = array::from_fn(|k| words[k / 8].to_le_bytes()[k % 8]);
        let books = Books::of(&Words(&bytes)).expect("books");
        let inbox = Buffer { handle: 7, address: 0x1000, pages: 1 };
        assert_eq!((books.inbox, books.outbox), (Some(inbox), None));
        assert_eq!((books.buffers().count(), books.ranges().len(), books.lent().len()), (8, 6, 1));
        assert!(books.buffers().filter(|b| !b.mapped()).map(|b| b.handle).eq([8, 9]));
        assert_eq!(books.mtt_mem(), None);
    }
}
