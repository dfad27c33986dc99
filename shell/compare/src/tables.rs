//! The layout of the tables, the mapped ranges and the mailboxes made from them.

use oracle::{leaves, parts};
use world::prng::Prng;
use world::results::{Layout, Refusal};

use crate::ffi::{self, Answer};
use crate::replies::{bar, bar_words, capability_reply, code, refusal};
use crate::{openings, order, Input, Leaf};

pub const LEAVES: &[Leaf] = &[
    Leaf { name: "layout", input: reply, rust: layout, proved: proved_layout },
    Leaf { name: "init_hca", input: with_bar, rust: init_hca, proved: proved_init_hca },
    Leaf {
        name: "pow2",
        input: near_a_power,
        rust: |i| Some(Answer::words(&[parts::pow2(i.words[0])])),
        proved: |i| Answer::words(&[ffi::pow2(i.words[0])]),
    },
    Leaf {
        name: "log2",
        input: near_a_power,
        rust: |i| Some(Answer::words(&[parts::log2(i.words[0]).into()])),
        proved: |i| Answer::words(&[ffi::log2(i.words[0]).into()]),
    },
];

/// Those that are not in the stored list: a layout of any size, without its ranges.
pub const MORE: &[Leaf] =
    &[Leaf { name: "tables", input: reply, rust: tables, proved: |i| without_ranges(proved_layout(i)) }];

/// Words of an answer: the refusal, total, base special QPN, first free MTT, eleven tables; then fourteen ranges, and the
/// comparisons.
const WORDS: usize = 89;
const TABLES_END: usize = 60;
const MAX_ICM: usize = 0xa0;
/// A reply to QUERY_FUNC, which the tables do not depend on.
const FUNC: [u8; 64] = [0; 64];

/// A capability reply; often the largest total that it allows is the total that it comes to, or one less.
fn reply(r: &mut Prng) -> Input {
    let mut bytes = capability_reply(r);
    if r.one_in(3) {
        bytes[MAX_ICM..MAX_ICM + 8].fill(0xff);
        if let Ok(l) = leaves::profile(&bytes, None) {
            let most = l.total - r.below(2) + r.below(2);
            bytes[MAX_ICM..MAX_ICM + 8].copy_from_slice(&most.to_be_bytes());
        }
    }
    let words = if r.one_in(4) { bar_words(r, &bytes) } else { vec![0, 0] };
    Input { words, bytes }
}

/// With the size of the UAR BAR known in every second one, mostly large enough.
fn with_bar(r: &mut Prng) -> Input {
    let mut i = reply(r);
    i.words = bar_words(r, &i.bytes);
    i
}

fn near_a_power(r: &mut Prng) -> Input {
    let power = 1u64 << r.below(64);
    let any = r.next_u64() >> r.below(64);
    Input::words(&[r.pick(&[power, power.wrapping_sub(1), power.wrapping_add(1), 0, u64::MAX, any])])
}

fn layout_words(l: &Layout) -> Vec<u64> {
    let mut order: Vec<usize> = (0..l.tables.len()).collect();
    order.sort_by_key(|i| l.tables[*i].base);
    let row = |i: usize| {
        let t = &l.tables[i];
        [i as u64, t.entry, t.count, t.bytes, t.base]
    };
    let mut words = vec![0, 0, l.total, l.base_sqpn, l.first_free_mtt];
    words.extend(order.into_iter().flat_map(row));
    words
}

/// A refusal is compared by number and value, and has no layout; the two numbers from the capabilities are not looked at.
fn refused(r: &Refusal) -> Answer {
    Answer::words(&[&code(r)[..], &[0; WORDS - 4]].concat())
}

/// The layout of an opening, and the ranges that the card was told of in it.
fn layout(i: &Input) -> Option<Answer> {
    let outcome = openings::open(&i.bytes, &FUNC, bar(i))?;
    if let Some(r) = refusal(&outcome) {
        return Some(refused(r));
    }
    let shown = outcome.expect("an opening");
    let mut words = layout_words(&shown.opened.layout);
    words.extend(shown.ranges.into_iter().flat_map(|(virt, bytes)| [virt, bytes]));
    words.push(order::of_layout(&shown.opened.layout));
    Some(Answer { words, bytes: Vec::new() })
}

fn proved_layout(i: &Input) -> Answer {
    let mut words = ffi::layout(&i.bytes, bar(i)).to_vec();
    if words[0] != 0 {
        words.drain(3..5);
    }
    Answer { words, bytes: Vec::new() }
}

/// `query_dev_cap` and `profile`, which need no memory.
fn tables(i: &Input) -> Option<Answer> {
    let outcome = leaves::profile(&i.bytes, bar(i));
    Some(match refusal(&outcome) {
        Some(r) => without_ranges(refused(r)),
        None => {
            let layout = outcome.expect("a layout");
            let words = [layout_words(&layout), vec![order::of_layout(&layout)]].concat();
            Answer { words, bytes: Vec::new() }
        }
    })
}

fn without_ranges(mut layout: Answer) -> Answer {
    let comparisons = layout.words.pop();
    layout.words.truncate(TABLES_END);
    layout.words.extend(comparisons);
    layout
}

/// The mailbox of an opening; none where the reply is refused.
fn init_hca(i: &Input) -> Option<Answer> {
    let shown = openings::open(&i.bytes, &FUNC, bar(i))?.ok()?;
    Some(Answer { words: vec![0], bytes: shown.init_hca })
}

fn proved_init_hca(i: &Input) -> Answer {
    let mut inbox = vec![0xa5; 4096];
    let number = ffi::init_hca(&i.bytes, bar(i), &mut inbox);
    Answer { words: vec![number.into()], bytes: inbox }
}
