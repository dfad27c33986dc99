//! The runs that are stored for the gate: `crates/machines/stdin` and `stdout`.

use super::beside::Runs;
use super::plans::{limits, waits, Case};
use super::records::Record;
use super::script::Faults;
use super::tasks::{self, NAMES};

const SEED: u64 = 2024;
/// So many runs of each machine, and every so-manieth of its runs.
const COUNT: usize = 40;
const STRIDE: usize = 17;

/// The input of the program, and what the Rust asked and came to.
pub fn sample() -> (Vec<u8>, String) {
    let known = waits().into_iter().map(|(_, case)| case).chain(limits());
    let known = known.map(|case: Case| tasks::run(&case, Faults::None).0);
    let seeded = (0..NAMES.len()).flat_map(|m| Runs::new(m, SEED).step_by(STRIDE).take(COUNT)).map(|(_, r)| r);
    let all: Vec<Record> = known.chain(seeded).collect();
    (all.iter().flat_map(|r| r.input.clone()).collect(), all.iter().map(|r| r.output.as_str()).collect())
}
