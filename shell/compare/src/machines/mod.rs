//! The machines of a session beside the driver's Rust: the Rust runs over a scripted bus; the answers it got go to the
//! program `machines`, which runs the proved machine on them; what it asks and how it ends must be what the Rust asked
//! and how it ended.
//!
//! `script` has the bus, `tasks` what is run, `plans` what the bus answers, `records` the program's input and output,
//! `beside` the comparison, `sample` the runs that the gate has stored.

pub mod beside;
pub mod plans;
pub mod records;
pub mod sample;
pub mod script;
pub mod tasks;
