//! Every leaf against the Rust, at random around the boundaries. The long run is `--bin long`.

use compare::run::run;

const SEED: u64 = 20;
const COUNT: u64 = if cfg!(debug_assertions) { 2_000 } else { 100_000 };

#[test]
fn every_leaf_gives_what_the_rust_gives() {
    for leaf in compare::leaves() {
        if let Err(difference) = run(&leaf, SEED, COUNT) {
            panic!("{difference}");
        }
    }
}

#[test]
fn a_wrong_leaf_is_found_with_its_smallest_input() {
    // As if the proved function forgot that a memory BAR has four low bits that are no address.
    let wrong = compare::Leaf {
        proved: |i| {
            let mut right = (compare::leaf("base").proved)(i);
            right.words[1] |= u64::from(i.words[i.words[6].min(5) as usize] & 0x0d == 0x08) << 3;
            right
        },
        ..compare::leaf("base")
    };
    let Err(difference) = run(&wrong, SEED, COUNT) else {
        panic!("the difference was not found");
    };
    // Nothing but that one dword is left.
    let (dwords, reg) = difference.smallest.words.split_at(6);
    assert_eq!((dwords[reg[0] as usize], dwords.iter().sum::<u64>()), (8, 8));
}
