//! The long run of the machines of a session beside the Rust.
//!
//! `machines [SEED [COUNT [MACHINE..]]]`      seed 1 and 100,000 runs each, of every machine, if left out

use std::process::ExitCode;

use compare::machines::beside::run;
use compare::machines::tasks::NAMES;
use compare::program;

fn main() -> ExitCode {
    program::compared("machines [SEED [COUNT [MACHINE..]]]", 100_000, &NAMES, |at, seed, count| {
        run(at, seed, count).map(|()| String::new())
    })
}
