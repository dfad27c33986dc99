//! What a ConnectX-3 bring-up session runs in: a host with memory, a card, a
//! bus with faults, all decided by a plan and, for random plans, by a seed.
//!
//! A driver reaches it only through `bus::Bus`, whose calls are the questions
//! of document 01; `trace::Traced` writes each of them down. Two drivers that
//! ask the same questions of two worlds of one plan get the same trace.

pub mod bus;
pub mod calls;
mod card;
mod config;
mod held;
mod host;
pub mod lean;
pub mod memory;
pub mod plan;
pub mod prng;
pub mod registers;
pub mod resources;
pub mod results;
mod seeded;
pub mod trace;
pub mod traced;
mod world;

pub use held::{Block, Held};
pub use host::Span;
pub use world::{Holdings, World, OTHER_LIST};

/// A page, and the unit of every device address of the domain.
pub const PAGE: u64 = 4096;
