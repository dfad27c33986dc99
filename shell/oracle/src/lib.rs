//! The reference of document 01: the driver's Rust, unchanged and without
//! overflow checks, over a `world::bus::Bus` in place of UEFI.
//!
//! `leaves` has its functions without a bus, `parts` smaller ones, `machines` its
//! tasks one at a time, `run` its calls, `openings` many openings in little time.

extern crate alloc;

#[macro_use]
mod console;
mod glue;
pub mod leaves;
pub mod machines;
pub mod openings;
pub mod parts;
mod refusal;
pub mod run;
mod script;

// fw, hcr, dma, bars and pci; see build.rs.
include!(concat!(env!("OUT_DIR"), "/sources.rs"));
