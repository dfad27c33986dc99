//! Whole openings on an obedient card, as fast as they can be had.

use std::cell::RefCell;
use std::rc::Rc;

use world::lean::Lean;
use world::plan::Plan;
use world::registers::{INIT_HCA, MAP_ICM};
use world::results::{Opened, Outcome, Refusal, Stop};
use world::trace::Post;
use world::PAGE;

use crate::run::{self, Driver};

/// A card of that many pages, used for one opening after the other.
pub struct Openings {
    card: Rc<RefCell<Lean>>,
}

/// What an opening gave, and what the card was told in it.
pub struct Shown {
    pub opened: Opened,
    /// Card address and bytes of each range, by the blocks of its MAP_ICM commands.
    pub ranges: Vec<(u64, u64)>,
    /// The INIT_HCA mailbox.
    pub init_hca: Vec<u8>,
}

impl Openings {
    pub fn new(pages: u64) -> Openings {
        let card = Lean::new(Plan::obedient().card.replies, pages);
        Openings { card: Rc::new(RefCell::new(card)) }
    }

    /// The replies to QUERY_DEV_CAP and QUERY_FUNC, and the size of the UAR BAR if it is known. Nothing where the host has
    /// not the memory for it.
    pub fn open(&self, cap: &[u8], func: &[u8], uar_size: Option<u64>) -> Option<Outcome<Shown>> {
        {
            let mut card = self.card.borrow_mut();
            card.start();
            card.replies.cap = cap.to_vec();
            card.replies.func = func.to_vec();
            card.uar_size = uar_size;
        }
        match run::open(&mut Driver::new(self.card.clone())) {
            Err(Stop::Refused(Refusal { number: 5, .. })) => None,
            outcome => Some(outcome.map(|opened| self.shown(opened))),
        }
    }

    fn shown(&self, opened: Opened) -> Shown {
        let card = self.card.borrow();
        let of = |op: u16| card.posts.iter().filter(move |p| p.op == op);
        let init_hca = of(INIT_HCA).find_map(|p| p.inbox.clone()).expect("an opening posts INIT_HCA");
        let ranges = ranges(of(MAP_ICM));
        for (handle, _, bytes) in &ranges {
            assert_eq!(card.granted[*handle as usize - 1] * PAGE, *bytes, "a range is mapped whole");
        }
        Shown { opened, ranges: ranges.into_iter().map(|(_, virt, bytes)| (virt, bytes)).collect(), init_hca }
    }
}

/// Handle, card address and bytes of each buffer that is mapped, in order.
fn ranges<'a>(posts: impl Iterator<Item = &'a Post>) -> Vec<(u64, u64, u64)> {
    let mut all: Vec<(u64, u64, u64)> = Vec::new();
    for (virt, phys, bytes) in posts.flat_map(blocks) {
        let (handle, offset) = Lean::buffer_at(phys);
        match all.last_mut().filter(|last| last.0 == handle) {
            Some(last) => {
                assert_eq!((last.1 + last.2, last.2), (virt, offset), "page k lies on page k of the buffer");
                last.2 += bytes;
            }
            None => {
                assert_eq!(offset, 0, "a range begins with its buffer");
                all.push((handle, virt, bytes));
            }
        }
    }
    all
}

/// Card address, device address and bytes of the blocks in a page mailbox.
fn blocks(post: &Post) -> Vec<(u64, u64, u64)> {
    let inbox = post.inbox.as_deref().expect("a page mailbox");
    let word = |at: usize| u64::from_be_bytes(inbox[at..at + 8].try_into().expect("eight bytes"));
    let block = |k: usize| {
        let (virt, phys) = (word(16 * k), word(16 * k + 8));
        (virt, phys & !(PAGE - 1), PAGE << (phys & (PAGE - 1)))
    };
    (0..post.in_mod as usize).map(block).collect()
}
