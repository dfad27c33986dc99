//! What the session costs beside the Rust, in instructions that callgrind counts in one run: held to a table. It is no
//! timing, and the same on every run but for the alignment of copies. It needs valgrind.

use std::path::Path;

use bench::callgrind::{counted, turn, Count, Counted};
use bench::cases;

/// The most instructions that the session may have for one of the Rust's: of an opening of input L without the zeroing of
/// memory, of its close, and of a poll turn, with the wrapper and by the library alone. They are what was counted, with a
/// little room: the Rust's own poll turn has 22.3 to 25 instructions, by what else is compiled with it.
const MOST: [(&str, f64); 4] = [("opening", 5.2), ("close", 7.5), ("poll turn", 13.2), ("poll turn, the library", 8.5)];

/// The two cases of the poll turn, and input L.
const CASES: usize = 3;

/// So many instructions at least have an opening, a close and a poll turn of either side; fewer were not counted right.
const LEAST: [f64; 4] = [100_000.0, 20_000.0, 10.0, 10.0];

/// The Rust's instructions and the session's, in the order of the table.
fn measured(all: &[Counted]) -> [(f64, f64); 4] {
    let without = |c: &Count| (c.all - c.memset) as f64;
    let [rust_open, rust_close, open, close] = &all[CASES - 1].1;
    let [rust_turn, ours, library] = turn(all);
    [
        (without(rust_open), without(open)),
        (without(rust_close), without(close)),
        (rust_turn, ours),
        (rust_turn, library),
    ]
}

/// Each is counted, and within its ratio.
fn held(found: [(f64, f64); 4]) -> Result<(), String> {
    for (((name, most), least), (rust, ours)) in MOST.iter().zip(LEAST).zip(found) {
        if rust < least || ours < least {
            return Err(format!("{name}: {rust:.1} and {ours:.1} are too few to be all"));
        }
        if ours / rust > *most {
            return Err(format!(
                "{name}: {ours:.1} for the Rust's {rust:.1}, {:.2} and not {most} for one",
                ours / rust
            ));
        }
    }
    Ok(())
}

#[test]
fn the_session_is_within_its_ratios() {
    let program = Path::new(env!("CARGO_BIN_EXE_instructions"));
    let all = counted(program, cases().into_iter().take(CASES).collect()).expect("a count");
    let found = measured(&all);
    println!("{found:.1?}");
    assert_eq!(held(found), Ok(()));
}

/// Each ratio is looked at, and so is each count.
#[test]
fn what_passes_a_ratio_is_told() {
    let rust = [148_000.0, 27_600.0, 25.0, 25.0];
    let at = |k: usize, ours: f64| {
        let mut found: [(f64, f64); 4] = std::array::from_fn(|i| (rust[i], rust[i] * MOST[i].1 * 0.99));
        found[k].1 = ours;
        held(found)
    };
    for (k, (name, most)) in MOST.iter().enumerate() {
        assert_eq!(at(k, rust[k] * most * 0.99), Ok(()));
        for wrong in [rust[k] * most * 1.01, 0.0] {
            assert!(at(k, wrong).is_err_and(|why| why.starts_with(name)), "{name}");
        }
    }
}
