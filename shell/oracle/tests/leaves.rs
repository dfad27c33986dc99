//! The leaves beyond document 01's own values.

use oracle::bars::How;
use oracle::leaves::{self, Block};
use world::plan::{input_l, put_be16, Plan};
use world::prng::Prng;
use world::registers::INIT_HCA;
use world::results::{Refusal, Stop};

const BARS: [u32; 6] = [0xf000_0004, 0, 0xe000_000c, 0, 0, 0];

#[test]
fn uar_fields_44_to_63_are_refused() {
    for field in 0..=63u8 {
        let mut l = input_l();
        l[0x49] = field | 0xc0;
        let outcome = leaves::profile(&l, None);
        let refused = Err(Stop::Refused(Refusal::new(14, &[field.into()])));
        assert_eq!(outcome.is_ok(), field <= 43, "field {field}");
        assert!(outcome.is_ok() || outcome == refused, "field {field}");
    }
}

#[test]
fn uar_area_against_the_bar() {
    let refused = Err(Stop::Refused(Refusal::new(15, &[1 << 20])));
    assert!(leaves::profile(&input_l(), Some(1 << 20)).is_ok());
    assert_eq!(leaves::profile(&input_l(), Some((1 << 20) - 1)), refused);
    assert_eq!(leaves::profile(&input_l(), Some(0)), refused);
}

fn number_of(reply: &[u8], uar_size: Option<u64>) -> u32 {
    match leaves::profile(reply, uar_size) {
        Err(Stop::Refused(r)) => r.number,
        other => panic!("{other:?}"),
    }
}

#[test]
fn refusals_in_the_order_of_the_rust() {
    let mut l = input_l();
    (l[0x4b], l[0x37], l[0x49], l[0x83], l[0xa3]) = (13, 3, 0x2c, 3, 0);
    // Each cause taken away shows the next one; a size of 0 is a known size.
    let steps = [(0x4b, 13, 12), (0x4b, 12, 13), (0x37, 2, 14), (0x49, 0, 15)];
    for (offset, value, number) in steps {
        l[offset] = value;
        assert_eq!(number_of(&l, Some(0)), number);
    }
    assert_eq!(number_of(&l, None), 16);
    l[0x83] = 0;
    assert_eq!(number_of(&l, None), 17);
}

#[test]
fn lowest_table_index_is_named() {
    let mut l = input_l();
    put_be16(&mut l, 0x80, 3);
    put_be16(&mut l, 0x82, 5);
    assert_eq!(leaves::profile(&l, None), Err(Stop::Refused(Refusal::new(16, &[0]))));
}

#[test]
fn a_short_reply_is_filled_with_zeros_and_a_long_one_cut() {
    assert_eq!(leaves::profile(&[], None), Err(Stop::Refused(Refusal::new(13, &[0]))));
    let mut long = input_l();
    long.resize(5000, 0xff);
    assert!(leaves::profile(&long, None).is_ok());
}

#[test]
fn blocks_reach_63_and_the_end() {
    let logs: Vec<u32> = leaves::blocks(Some(0), 0, u64::MAX).map(|b| b.log).take(65).collect();
    assert_eq!(logs, (0..64).rev().collect::<Vec<_>>());
    let last = leaves::blocks(None, 0u64.wrapping_sub(0x3000), 0x3000).last().unwrap();
    assert_eq!(last, Block { virt: 0, phys: 0u64.wrapping_sub(0x2000), log: 13 });
}

#[test]
fn blocks_tile_their_range() {
    let mut r = Prng::new(8);
    for _ in 0..2000 {
        let page = |r: &mut Prng| (r.next_u64() >> r.below(52)) & 0x7fff_ffff_f000;
        let (v, p, size) = (page(&mut r), page(&mut r), (1 + r.below(300)) * 4096);
        let mut at = 0;
        for b in leaves::blocks(Some(v), p, size) {
            assert_eq!((b.virt, b.phys), (v + at, p + at));
            assert_eq!((b.virt | b.phys) % (1 << b.log), 0);
            let larger = 1u64 << (b.log + 1);
            assert!((b.virt | b.phys) % larger != 0 || larger > size - at, "not the largest exponent");
            at += 1 << b.log;
        }
        assert_eq!(at, size);
    }
}

#[test]
fn choose_by_base_scan_and_answers() {
    let uar = Some((0xe000_0000, 0x80_0000));
    let other = Some((0xd000_0000, 0x1000));
    let cases = [
        ([None, None, uar, None, None, None], 2, How::BaseMatches, vec![2, 1]),
        ([None, uar, None, None, None, None], 1, How::BaseMatches, vec![2, 1]),
        ([None, uar, uar, None, None, None], 2, How::BaseMatches, vec![2, 1]),
        ([other, other, None, None, uar, uar], 4, How::Scan, vec![2, 1, 0, 3, 4]),
        ([None, other, None, None, None, None], 1, How::OnlyAnswer, vec![2, 1, 0, 3, 4, 5]),
        ([None, other, other, None, None, None], 2, How::NoMatch, vec![2, 1, 0, 3, 4, 5]),
        ([other, None, None, other, None, None], 2, How::NoAnswer, vec![2, 1, 0, 3, 4, 5]),
    ];
    for (answers, index, how, asked) in cases {
        let c = leaves::choose(&BARS, 2, &answers).unwrap();
        assert_eq!((c.index, c.how, c.asked), (index, how, asked), "{answers:?}");
        assert_eq!(c.size.is_none(), how == How::NoAnswer);
    }
}

#[test]
fn choose_without_a_base_asks_the_candidates_only() {
    let bars = [0xf000_0004, 0, 0xc, 0, 0, 0];
    let zero = Some((0, 0x1000));
    let c = leaves::choose(&bars, 2, &[zero; 6]).unwrap();
    assert_eq!((c.index, c.how, c.asked), (2, How::NoMatch, vec![2, 1]));
}

#[test]
fn a_register_above_5_is_outside() {
    assert!(matches!(leaves::base(&BARS, 6), Err(Stop::Outside(_))));
    assert!(matches!(leaves::choose(&BARS, 6, &[None; 6]), Err(Stop::Outside(_))));
}

#[test]
fn init_hca_leaf_equals_the_posted_mailbox() {
    let mut compared = 0;
    for seed in 0..400 {
        let mut plan = Plan::obedient();
        plan.card.replies.cap = Plan::seeded(seed).card.replies.cap;
        let (world, mut driver) = oracle::run::in_world(plan.clone());
        let opened = oracle::run::open(&mut driver);
        let trace = world.borrow_mut().take();
        let Some(post) = trace.posts().find(|p| p.op == INIT_HCA) else {
            continue;
        };
        assert!(opened.is_ok());
        let mut posted = post.inbox.clone().unwrap();
        posted.resize(4096, 0);
        assert_eq!(leaves::init_hca(&plan.card.replies.cap), Ok(posted), "seed {seed}");
        compared += 1;
    }
    assert!(compared > 200, "only {compared} openings came to INIT_HCA");
}
