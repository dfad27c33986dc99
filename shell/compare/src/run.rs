//! The comparison of a leaf over many cases.

use std::fmt;

use world::prng::Prng;

use crate::ffi::Answer;
use crate::{Input, Leaf};

/// A case where the two differ: as it was found, and the smallest found from it.
pub struct Difference {
    pub leaf: &'static str,
    pub seed: u64,
    pub case: u64,
    pub smallest: Input,
    pub rust: Answer,
    pub proved: Answer,
}

impl fmt::Display for Difference {
    fn fmt(&self, f: &mut fmt::Formatter<'_>) -> fmt::Result {
        writeln!(f, "{}: seed {} case {}", self.leaf, self.seed, self.case)?;
        writeln!(f, "  smallest input: words {:x?} bytes {}", self.smallest.words, sparse(&self.smallest.bytes))?;
        writeln!(f, "  the Rust:  words {:x?} bytes {}", self.rust.words, sparse(&self.rust.bytes))?;
        write!(f, "  the proof: words {:x?} bytes {}", self.proved.words, sparse(&self.proved.bytes))
    }
}

/// The length, and the bytes that are not 0 with their offsets.
fn sparse(bytes: &[u8]) -> String {
    let set = bytes.iter().enumerate().filter(|(_, b)| **b != 0);
    let shown: Vec<String> = set.take(40).map(|(i, b)| format!("{i:#x}={b:02x}")).collect();
    format!("{} [{}]", bytes.len(), shown.join(" "))
}

/// Compares so many cases, not counting those outside the domain; gives how many were made for it.
pub fn run(leaf: &Leaf, seed: u64, count: u64) -> Result<u64, Box<Difference>> {
    let mut r = Prng::new(seed);
    let (mut made, mut compared) = (0, 0);
    while compared < count {
        let input = (leaf.input)(&mut r);
        match differs(leaf, &input) {
            None => {}
            Some(false) => compared += 1,
            Some(true) => return Err(Box::new(difference(leaf, seed, made, input))),
        }
        made += 1;
    }
    Ok(made)
}

/// Compares one case; nothing outside the domain.
fn differs(leaf: &Leaf, input: &Input) -> Option<bool> {
    (leaf.rust)(input).map(|rust| rust != (leaf.proved)(input))
}

/// Compares one case of a list, and fails with the smallest input where the two differ.
pub fn same(leaf: &Leaf, input: &Input) -> bool {
    let found = differs(leaf, input);
    if found == Some(true) {
        panic!("{}", difference(leaf, 0, 0, input.clone()));
    }
    found.is_some()
}

fn difference(leaf: &Leaf, seed: u64, case: u64, found: Input) -> Difference {
    let smallest = smallest(leaf, found);
    let rust = (leaf.rust)(&smallest).expect("within the domain");
    let proved = (leaf.proved)(&smallest);
    Difference { leaf: leaf.name, seed, case, smallest, rust, proved }
}

/// Makes the input smaller, one part at a time, as long as the two still differ.
fn smallest(leaf: &Leaf, mut input: Input) -> Input {
    while let Some(next) = smaller(&input).into_iter().find(|i| differs(leaf, i) == Some(true)) {
        input = next;
    }
    input
}

/// Inputs that are smaller in one word or in one byte, the boldest step first.
fn smaller(input: &Input) -> Vec<Input> {
    let mut all = Vec::new();
    for (i, w) in input.words.iter().enumerate() {
        for v in [0, w / 2, w & (w.wrapping_sub(1)), w.saturating_sub(1)] {
            if v < *w {
                let mut next = input.clone();
                next.words[i] = v;
                all.push(next);
            }
        }
    }
    for (i, b) in input.bytes.iter().enumerate() {
        for v in [0, b & b.wrapping_sub(1)] {
            if v < *b {
                let mut next = input.clone();
                next.bytes[i] = v;
                all.push(next);
            }
        }
    }
    all
}
