//! Lists of calls beside the driver's Rust: an opening, client commands in the five forms, lendings, undo records, `undo_to`,
//! `quiesce` and a close, in any order. Both run over worlds of one plan. Behind each call the same must be: every bus call
//! with its arguments and its answer, the bytes of the inbox at each command, the call's result, the books of the open
//! session with its lent buffers and the undo list, and both mailboxes; and at the end what host and card hold.
//!
//! `cases` has what is run, `told` the session's calls and results in the Rust's words, `beside` the comparison, `sample` the
//! lists that the gate has, and `stored` their form.

pub mod beside;
pub mod cases;
pub mod sample;
pub mod stored;
pub mod told;
