//! What document 01 refuses and the Rust does not: 21, 18 and 4. And slices that are too short for an answer.

use compare::ffi::{self, Rest, SHORT};
use world::plan::input_l;
use world::prng::Prng;

#[test]
fn every_reply_too_short_is_21() {
    let l = input_l();
    for n in 0..168 {
        assert_eq!(ffi::dev_cap(&l[..n], None)[..2], [21, 0]);
        assert_eq!(ffi::layout(&l[..n], None)[..2], [21, 0]);
    }
    for n in 0..0x3d {
        assert_eq!(ffi::query_fw(&l[..n], 2)[0], 21);
    }
    for n in 0..0x28 {
        assert_eq!(ffi::query_port(&l[..n], 1)[0], 21);
    }
    for n in 0..0x0c {
        assert_eq!(ffi::query_func(&l[..n])[0], 21);
    }
    assert_eq!(ffi::dev_cap(&l, None)[0], 0);
    assert_eq!((ffi::query_port(&l[..0x28], 1)[0], ffi::query_func(&l[..0x0c])[0]), (0, 0));
}

#[test]
fn what_stands_beside_a_refusal_is_0() {
    let cap = ffi::dev_cap(&[], None);
    assert!(cap[1..].iter().all(|w| *w == 0));
    let layout = ffi::layout(&[], None);
    assert!(layout[5..].iter().all(|w| *w == 0) && layout[2] == 0);
}

#[test]
fn an_answer_slice_too_short_is_21_and_left_as_it_was() {
    let l = input_l();
    let mut out = [0xa5; 89 * 8];
    for n in 0..89 * 8 {
        assert_eq!(ffi::layout_in(&l, &mut out[..n]), SHORT);
        assert!(out.iter().all(|b| *b == 0xa5), "a slice of {n} bytes was written");
    }
    assert_eq!(ffi::layout_in(&l, &mut out), 0);
}

#[test]
fn a_register_above_5_is_4() {
    let d = [0xf000_0004; 6];
    for reg in [6, 7, 100, usize::MAX] {
        assert_eq!((ffi::base(d, reg)[0], ffi::candidates(d, reg)[0], ffi::choose(d, reg)[0]), (4, 4, 4));
    }
}

#[test]
fn a_field_past_the_end_is_21_and_writes_nothing() {
    let mut s = [7u8; 10];
    for off in [3, 10, 11, usize::MAX - 7, usize::MAX] {
        assert_eq!(ffi::field(&s, false, off, 8), [21, 0]);
        assert_eq!(ffi::set_field(&mut s, false, off, 8, 0), 21);
    }
    assert_eq!(ffi::field(&s, false, 0, 9), [21, 0]);
    assert_eq!(s, [7; 10]);
}

#[test]
fn ranges_outside_are_18() {
    assert_eq!(ffi::blocks(None, 0x3001, 0x1000), Err(18));
    assert_eq!(ffi::blocks(None, 0u64.wrapping_sub(0x1000), 0x1001), Err(18));
    assert!(ffi::blocks(None, 0u64.wrapping_sub(0x1000), 0x1000).is_ok());
    assert_eq!(ffi::blocks(Some(0u64.wrapping_sub(0x1000)), 0, 0x1001), Err(18));
    assert_eq!((ffi::pages_of(u64::MAX - 4094)[0], ffi::pages_of(u64::MAX - 4095)[0]), (18, 0));
    assert_eq!(ffi::blocks(None, 0, u64::MAX), Err(18));
    assert_eq!(ffi::blocks(None, 0, u64::MAX - 4094), Err(18));
    assert!(ffi::blocks(None, 0, u64::MAX - 4095).is_ok());
    assert_eq!((ffi::accept(0, 1 << 52), ffi::accept(0, (1 << 52) - 1), ffi::accept(4096, (1 << 52) - 1)), (18, 0, 0));
}

/// A mailbox of another length is 21 and stays as it was.
#[test]
fn mailboxes_have_4096_bytes() {
    let l = input_l();
    let rest = Rest { virt: Some(0x1000), phys: 0x4000, left: 0x5000 };
    for n in [0, 1, 16, 4095, 4097, 8192] {
        let mut inbox = vec![0xa5; n];
        assert_eq!(ffi::fill(&mut inbox, 63, rest, 256), Err(21));
        assert_eq!((ffi::init_hca(&l, None, &mut inbox), ffi::mod_stat_cfg(&mut inbox)), (21, 21));
        assert!(inbox.iter().all(|b| *b == 0xa5));
    }
}

/// The capacity of a page mailbox is at most 256, and a smaller one is kept; so is a largest exponent.
#[test]
fn smaller_mailboxes_and_blocks() {
    let mut inbox = [0; 4096];
    let rest = Rest { virt: Some(0x1000), phys: 0x4000, left: 300 * 4096 };
    for (capacity, entries) in [(0, 0), (1, 1), (255, 255), (256, 256), (257, 256), (usize::MAX, 256)] {
        assert_eq!(ffi::fill(&mut inbox, 63, rest, capacity).map(|f| f.0), Ok(entries));
    }
    for largest in 12..=20 {
        let block = ffi::cut(largest, Rest { virt: None, phys: 1 << 30, left: 1 << 29 });
        assert_eq!(block.map(|(b, _)| b[2]), Some(largest.into()));
    }
}

/// Any bytes are a state of a choice: the step ends, and asks for no index above the second candidate's or 5.
#[test]
fn a_damaged_state_is_stepped_all_the_same() {
    let mut r = Prng::new(3);
    for _ in 0..100_000 {
        let state = r.bytes(128);
        let answer = r.one_in(2).then(|| (r.next_u64(), r.next_u64()));
        let step = ffi::choose_step_in(&state, answer);
        assert!(step[0] <= 1 && step[1] <= 255);
    }
}
