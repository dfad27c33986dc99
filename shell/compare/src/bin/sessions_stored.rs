//! Writes the sample of lists of calls for the gate.
//!
//! sessions_stored STDIN STDOUT      the two files

use std::process::ExitCode;

fn main() -> ExitCode {
    compare::program::stored("sessions_stored STDIN STDOUT", compare::calls::sample::sample)
}
