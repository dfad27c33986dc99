//! Openings with larger tables than the leaves' own, MOD_STAT_CFG, and what has no leaf.

use compare::ffi;
use compare::openings::PAGES;
use compare::replies::capability_reply;
use oracle::openings::Openings;
use oracle::{parts, run};
use world::plan::{input_l, Plan};
use world::prng::Prng;
use world::registers::MOD_STAT_CFG;

const CASES: usize = if cfg!(debug_assertions) { 5 } else { 200 };
/// The pages of the largest opening here: 1 GB.
const LARGE: u64 = 1 << 18;

/// Layouts that need more memory than the leaves `layout` and `init_hca` are granted.
#[test]
fn openings_with_large_tables() {
    let mut r = Prng::new(4);
    let card = Openings::new(LARGE);
    let mut compared = 0;
    while compared < CASES {
        let reply = capability_reply(&mut r);
        let bar = r.one_in(2).then_some(u64::MAX);
        let Some(Ok(shown)) = card.open(&reply, &[], bar) else {
            continue;
        };
        if shown.ranges.iter().map(|(_, bytes)| bytes / 4096).sum::<u64>() <= PAGES {
            continue;
        }
        let words = ffi::layout(&reply, bar);
        let proved: Vec<(u64, u64)> = words[60..88].chunks(2).map(|w| (w[0], w[1])).collect();
        assert_eq!(shown.ranges, proved, "{}", shown.opened.layout);
        let mut inbox = vec![0xa5; 4096];
        assert_eq!(ffi::init_hca(&reply, bar, &mut inbox), 0);
        assert_eq!(inbox, shown.init_hca, "{}", shown.opened.layout);
        compared += 1;
    }
}

#[test]
fn mod_stat_cfg_is_what_the_opening_posts() {
    let (world, mut driver) = run::in_world(Plan::obedient());
    run::open(&mut driver).expect("a good opening");
    let trace = world.borrow_mut().take();
    let mut posted = trace.posts().find(|p| p.op == MOD_STAT_CFG).and_then(|p| p.inbox.clone()).expect("an inbox");
    posted.resize(4096, 0);
    let mut inbox = vec![0xa5; 4096];
    assert_eq!(ffi::mod_stat_cfg(&mut inbox), 0);
    assert_eq!(inbox, posted);
}

/// The opcodes that bring-up and closing send, queries excepted, and those above twelve bits.
#[test]
fn reserved_opcodes() {
    const RESERVED: [u16; 11] = [0x007, 0x008, 0x034, 0xff6, 0xff9, 0xffa, 0xffb, 0xffc, 0xffd, 0xffe, 0xfff];
    for op in 0..=u16::MAX {
        assert_eq!(ffi::reserved(op), op > 0xfff || RESERVED.contains(&op), "{op:#x}");
    }
}

/// The Rust masks the number of a flag to six bits; the proved function says no above 63 (docs/DIFFERENCES.md).
#[test]
fn flags_above_63_are_a_known_difference() {
    assert!(parts::flag(1, 64));
    assert!(!ffi::flag(1, 64));
}

#[test]
fn input_l_has_its_layout() {
    let words = ffi::layout(&input_l(), None);
    assert_eq!(words[..5], [0, 0, 0x1_0012_1000, 512, 8]);
    assert_eq!(words[5..10], [8, 64, 67_108_864, 0x1_0000_0000, 0]);
}
