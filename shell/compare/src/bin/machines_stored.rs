//! Writes the sample of runs that the program `machines` is held to in the gate.
//!
//! machines_stored STDIN STDOUT      the two files

use std::process::ExitCode;

fn main() -> ExitCode {
    compare::program::stored("machines_stored STDIN STDOUT", compare::machines::sample::sample)
}
