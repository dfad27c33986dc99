//! The long run: every leaf over many cases.
//!
//! `long [SEED [COUNT [LEAF..]]]`      seed 1 and a million cases each, of every leaf, if left out

use std::process::ExitCode;

use compare::program;
use compare::run::run;

fn main() -> ExitCode {
    let leaves = compare::leaves();
    let names: Vec<&str> = leaves.iter().map(|l| l.name).collect();
    program::compared("long [SEED [COUNT [LEAF..]]]", 1_000_000, &names, |at, seed, count| {
        run(&leaves[at], seed, count).map(|made| format!(" {made}"))
    })
}
