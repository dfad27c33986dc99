//! The list of the Rust's answers that the program `replay` reads; docs/REPLAY.md has its form.

use oracle::leaves;
use world::plan::input_l;
use world::prng::Prng;

use crate::ffi::Answer;
use crate::{Input, Leaf};

/// The answers of each leaf, and the seed that its cases come from.
const COUNT: usize = 60;
const SEED: u64 = 2024;
/// The longest record, behind its head.
const BODY: usize = 4096;
/// The most bytes of an answer that a page mailbox or a list of blocks may have here.
const ANSWER: usize = 1200;

/// The whole list: the leaves in their order.
pub fn list() -> Vec<u8> {
    crate::stored_leaves().iter().enumerate().flat_map(|(number, leaf)| of_leaf(number, leaf)).collect()
}

/// The records of a leaf: known inputs first, then those of its seed.
fn of_leaf(number: usize, leaf: &Leaf) -> Vec<u8> {
    let mut r = Prng::new(SEED + number as u64);
    let known = known(leaf.name).into_iter();
    let all = known.chain(std::iter::repeat_with(|| (leaf.input)(&mut r)));
    all.filter_map(|i| record(number, leaf, &i)).take(COUNT).flatten().collect()
}

/// Input L, where the leaf takes a capability reply; the buffer of 257 pages, of which the first mailbox is stored.
fn known(name: &str) -> Vec<Input> {
    match name {
        "dev_cap" | "layout" | "init_hca" => vec![Input { words: vec![0, 0], bytes: input_l() }],
        _ => Vec::new(),
    }
}

/// Leaf and three lengths, 16 bits each; then words, bytes and answer. Nothing where the answer lies outside the domain
/// or is too long.
fn record(number: usize, leaf: &Leaf, input: &Input) -> Option<Vec<u8>> {
    let answer = stored(leaf.name, &answer(leaf, input)?);
    let words: Vec<u8> = input.words.iter().flat_map(|w| w.to_be_bytes()).collect();
    if answer.len() > ANSWER || words.len() + input.bytes.len() + answer.len() > BODY {
        return None;
    }
    let head = [number, words.len(), input.bytes.len(), answer.len()].map(|n| (n as u16).to_be_bytes());
    Some([head.concat(), words, input.bytes.clone(), answer].concat())
}

/// The Rust's answer; of a page list only the first mailbox.
fn answer(leaf: &Leaf, input: &Input) -> Option<Answer> {
    if leaf.name != "fill" {
        return (leaf.rust)(input);
    }
    let virt = (input.words[0] != 0).then_some(input.words[1]);
    let first = leaves::mailboxes(virt, input.words[2], input.words[3] as usize).ok()?.swap_remove(0);
    Some(Answer { words: vec![first.entries.into()], bytes: first.page })
}

/// Words, then bytes, without the zeros at the end. A field that is written has its number in front of the bytes, and a
/// cleared slice a word of zeros.
fn stored(name: &str, answer: &Answer) -> Vec<u8> {
    let words = if name == "zero" { vec![0] } else { answer.words.clone() };
    let mut all: Vec<u8> = words.iter().flat_map(|w| w.to_be_bytes()).collect();
    all.extend(&answer.bytes);
    all.truncate(all.iter().rposition(|b| *b != 0).map_or(0, |last| last + 1));
    all
}
