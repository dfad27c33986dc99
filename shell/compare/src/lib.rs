//! Compares the proved leaves with the driver's Rust, by running both.
//!
//! A case is a list of words and some bytes; a leaf says how to make cases, and what the Rust and the proved function
//! give for one. `run` has the comparison, `stored` the sample that the program `replay` reads. `machines` compares tasks,
//! `sessions` openings and closes, `calls` lists of all calls; `arbitrary` calls the functions of include/hca.h with anything
//! at all, and `image` says where the parts of a session's bytes are. `order` counts the comparisons that put tables in order,
//! which the Rust does not tell; `lists` makes resource lists, on either side of the Rust's domain. `program` has what the
//! programs share.

pub mod arbitrary;
pub mod bars;
pub mod calls;
pub mod command;
pub mod ffi;
pub mod fields;
pub mod image;
pub mod lists;
pub mod machines;
pub mod memory;
pub mod openings;
pub mod order;
pub mod program;
pub mod replies;
pub mod run;
pub mod sessions;
pub mod stored;
pub mod tables;

use ffi::Answer;
use world::prng::Prng;

/// The input of a leaf.
#[derive(Clone, PartialEq, Eq, Debug, Default)]
pub struct Input {
    pub words: Vec<u64>,
    pub bytes: Vec<u8>,
}

impl Input {
    pub fn words(words: &[u64]) -> Input {
        Input { words: words.to_vec(), bytes: Vec::new() }
    }
}

/// A proved function and what it is compared with.
#[derive(Clone, Copy)]
pub struct Leaf {
    pub name: &'static str,
    /// A case near the boundaries that matter.
    pub input: fn(&mut Prng) -> Input,
    /// What the Rust gives; nothing outside the domain of document 01.
    pub rust: fn(&Input) -> Option<Answer>,
    /// What the proved function gives.
    pub proved: fn(&Input) -> Answer,
}

/// The leaves of the stored list, by their numbers there.
pub fn stored_leaves() -> Vec<Leaf> {
    [fields::LEAVES, bars::LEAVES, memory::LEAVES, replies::LEAVES, tables::LEAVES, command::LEAVES].concat()
}

/// Every leaf that is compared.
pub fn leaves() -> Vec<Leaf> {
    [&stored_leaves()[..], tables::MORE, command::MORE].concat()
}

/// The leaf of that name.
pub fn leaf(name: &str) -> Leaf {
    leaves().into_iter().find(|l| l.name == name).expect("a leaf of that name")
}
