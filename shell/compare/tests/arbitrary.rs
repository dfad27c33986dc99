//! A part of the random and damaged calls of every function of include/hca.h.

use compare::arbitrary::{self, FUNCTIONS, NUMBERS};

const CALLS: u64 = if cfg!(debug_assertions) { 20_000 } else { 200_000 };

#[test]
fn arbitrary_calls_are_taken_or_refused_and_write_nowhere_else() {
    let figures = arbitrary::run(9, CALLS).unwrap_or_else(|why| panic!("{why}"));
    println!("{figures}");
    assert_eq!(figures.sum().iter().sum::<u64>(), CALLS);
    for ((function, name), given) in FUNCTIONS.iter().zip(figures.given) {
        let has = |n: &u32| function.numbers().contains(n);
        assert!(NUMBERS.iter().zip(given).all(|(n, times)| has(n) == (times > 0)), "{name}: {given:?}");
    }
    assert!(figures.known > CALLS / 4 && figures.wrapper > CALLS / 20 && figures.damaged > CALLS / 50, "{figures}");
}

/// The same seed makes the same calls.
#[test]
fn a_seed_decides_the_calls() {
    assert_eq!(arbitrary::run(3, 500), arbitrary::run(3, 500));
    assert_ne!(arbitrary::run(3, 500), arbitrary::run(4, 500));
}

mod null {
    use std::ptr::{null, null_mut};

    use session::abi::{OPEN, SHORT, STATE, WRONG};
    use session::ffi::c::{hca_books, hca_call, hca_fresh, hca_push_undo};
    use session::{ffi, Undo};

    /// A pointer may be null where its length is 0.
    #[test]
    fn null_pointers_to_no_bytes() {
        let mut state = [0; STATE];
        assert_eq!(ffi::fresh(&mut state), 0);
        let before = state;
        let none = null_mut();
        // SAFETY: every slice is whole, or has no bytes.
        unsafe {
            assert_eq!(hca_fresh(none, 0), SHORT);
            assert_eq!(hca_books(null(), 0, none, 0), SHORT);
            assert_eq!(hca_books(state.as_ptr(), STATE, none, 0), SHORT);
            let list: *const Undo = null();
            let call = |state: *mut u8, bytes: usize, kind: u32| {
                hca_call(state, bytes, kind, 0, 0, 0, 0, null(), 0, none, 0, none, 0, list, 0, 0, none, 0)
            };
            assert_eq!(call(none, 0, OPEN), SHORT);
            assert_eq!(call(state.as_mut_ptr(), STATE, OPEN), SHORT);
            assert_eq!(call(state.as_mut_ptr(), STATE, 10), WRONG);
            assert_eq!(hca_push_undo(null_mut(), 0, 0, 0x20, 0, 0, 0), SHORT);
        }
        assert_eq!(state, before);
    }
}
