//! A slice that is lent, with what stands around it.

use std::fmt;

use session::Undo;

/// The guards on either side: so many bytes, or records.
const GUARD: usize = 64;

/// Bytes, or undo records. With guards a write outside is seen here; without them the slice is an allocation of its own, and
/// a tool that watches the heap sees a read outside as well.
#[derive(Clone)]
pub struct Piece<T = u8> {
    items: Vec<T>,
    before: Vec<T>,
    guard: usize,
}

pub type Records = Piece<Undo>;

impl<T: Copy + PartialEq> Piece<T> {
    /// The first of `from`, and `fill` behind them.
    pub fn new(from: &[T], length: usize, guarded: bool, fill: T) -> Piece<T> {
        let guard = if guarded { GUARD } else { 0 };
        let mut items = vec![fill; length + 2 * guard];
        let n = from.len().min(length);
        items[guard..guard + n].copy_from_slice(&from[..n]);
        Piece { before: items.clone(), items, guard }
    }

    pub fn lent(&mut self) -> &mut [T] {
        let end = self.items.len() - self.guard;
        &mut self.items[self.guard..end]
    }

    /// What is in it now.
    pub fn now(&self) -> &[T] {
        &self.items[self.guard..self.items.len() - self.guard]
    }

    pub fn len(&self) -> usize {
        self.items.len() - 2 * self.guard
    }

    /// Nothing but its first ones, so many, may have changed.
    pub fn kept_but(&self, written: usize) -> bool {
        self.kept_but_from(0, written)
    }

    /// Nothing but so many from a place on may have changed.
    pub fn kept_but_from(&self, from: usize, written: usize) -> bool {
        let start = self.guard + from.min(self.len());
        let end = self.guard + from.saturating_add(written).min(self.len());
        self.items[..start] == self.before[..start] && self.items[end..] == self.before[end..]
    }
}

/// Its length, and whether it has guards.
impl<T: Copy + PartialEq> fmt::Debug for Piece<T> {
    fn fmt(&self, f: &mut fmt::Formatter<'_>) -> fmt::Result {
        write!(f, "{} long{}", self.len(), if self.guard == 0 { "" } else { ", guarded" })
    }
}

#[cfg(test)]
mod tests {
    use super::*;

    /// A piece in which one byte of all, guards included, was changed.
    fn changed(at: usize) -> Piece {
        let mut piece = Piece::new(&[1, 2, 3], 4, true, 0xc3);
        assert_eq!((piece.lent().to_vec(), piece.len()), (vec![1, 2, 3, 0xc3], 4));
        piece.items[at] ^= 1;
        piece
    }

    #[test]
    fn a_write_outside_is_seen() {
        for at in 0..2 * GUARD + 4 {
            let piece = changed(at);
            let within = |from: usize, to: usize| (GUARD + from..GUARD + to).contains(&at);
            assert!([0, 1, 3, 4, 9].into_iter().all(|w| piece.kept_but(w) == within(0, w.min(4))), "{at}");
            assert_eq!(piece.kept_but_from(2, 1), within(2, 3), "{at}");
            assert!(!piece.kept_but_from(9, 1), "{at}");
        }
    }
}
