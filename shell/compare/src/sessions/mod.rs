//! Whole sessions beside the driver's Rust: an opening, undo records pushed on the open session, a close. Both run over
//! worlds of one plan; every bus call with its arguments and its answer, the bytes of the inbox at each command, the
//! results, the books of the open session, the mailboxes, and what host and card hold at the end must be the same.
//!
//! `over` is the session's bus over the world's (of the package `station`), `glimpse` a card that shows GO once where it
//! should not, `cases` what is run, `told` the session's results in the Rust's words, `beside` the comparison, `sample` the
//! runs that the gate has; `answers` has the answers that suit a question.

pub mod answers;
pub mod beside;
pub mod cases;
pub mod glimpse;
pub use station::over;
pub mod sample;
pub mod told;
