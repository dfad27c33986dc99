//! A ConnectX-3 card's session for a loader: the functions of include/hca.h, safe and with types.
//!
//! The library decides what is asked of the bus, and in what order; it touches no bus. A loader has a `Session` for each
//! card, a `Bus` that does what a question says, and an `UndoList` over records of his own. He calls `Session::open`; on the
//! open session `Session::call` with a client command in one of its five forms, `Call::Lend`, `Call::UndoTo` or
//! `Call::Quiesce`; and `Session::close`. Each answers questions until the call has its result. One who wants to do other
//! things between two questions calls `Session::begin`, then `Session::ask` and `Session::answer` in turn.
//!
//! What the loader has to do stands with the methods of `Bus`. In short: registers are not swapped; a null list and null
//! pages are failures; pages are zeroed; the token of a map is kept under the handle of its pages; a resource list is
//! copied and then given back with `FreePool`; a fence copies the mailboxes, to the device before a command is posted, and
//! from it once the command was seen done. docs/SHELL.md has it as a table; the crate `loader` beside this one is a complete
//! `Bus` over `EFI_PCI_IO_PROTOCOL`, with the calls made as a UEFI loader makes them.
//!
//! A session from its opening to its close, over any `Bus`:
//!
//! ```
//! use session::{Bus, Call, Closing, Command, Outcome, Refused, Session, UndoList};
//!
//! const QUERY_FW: Command = Command { op: 0x004, op_mod: 0, in_mod: 0 };
//!
//! /// The firmware's version as major, minor and subminor, where the card can be opened; and how the session was closed.
//! fn firmware(
//!     session: &mut Session,
//!     bus: &mut impl Bus,
//!     undo: &mut UndoList,
//! ) -> Result<(Option<[u16; 3]>, Closing), Refused> {
//!     // An opening that fails has closed the session itself.
//!     if let Outcome::Failed(_why, closing) = session.open(bus, undo)? {
//!         return Ok((None, closing));
//!     }
//!     let version = match session.call(Call::WithOut { command: QUERY_FW }, bus, undo)? {
//!         Outcome::Done { .. } => Some([2, 6, 4].map(|at| {
//!             let reply = session.outbox();
//!             u16::from_be_bytes([reply[at], reply[at + 1]])
//!         })),
//!         // Failed, and the session is open all the same.
//!         _ => None,
//!     };
//!     match session.close(bus, undo)? {
//!         Outcome::Closed(closing) => Ok((version, closing)),
//!         _ => unreachable!("a close gives nothing else"),
//!     }
//! }
//! ```
//!
//! Behind `Closing::Kept` the card may still use what `Session::books` names, and none of it may be given back. The session
//! and the records of the undo list live as long as the session is open, and not on the stack of a UEFI program.
//!
//! # In a UEFI loader
//!
//! The library is an archive with one ELF object for x86-64 (System V calling convention, SSE2, no AVX). A linker for PE
//! has to be given it as COFF (`objcopy -O pe-x86-64`). It is compiled with the red zone: code that interrupts a call on
//! its own stack, as firmware does, writes over bytes that the call still uses. So long as that is so, a loader makes each
//! call with interrupts off (`RaiseTPL` to `TPL_HIGH_LEVEL`, `RestoreTPL` behind it); it never has to while it asks the bus.
//!
//! The library calls `memcpy` and `memset` and no other function from outside; a program without a C library has to have
//! those (`compiler_builtins` with its feature `mem`, or the target's own). Nothing here allocates. docs/BENCHMARK.md says
//! how much stack a call needs.

#![no_std]
#![warn(missing_docs)]

pub mod abi;
mod books;
mod bus;
mod call;
pub mod ffi;
mod outcome;
mod question;
mod session;
mod setup;
mod undo;

pub use books::{Books, Buffer, Range};
pub use bus::{Bus, Fence, Mailbox};
pub use call::{Call, Command};
pub use outcome::{Closing, Outcome, Refusal};
pub use question::{Answer, Attribute, Mapping, Question};
pub use session::{Refused, Session, LIST_BYTES};
pub use setup::{Capabilities, How, Port, Setup, Table, Uar};
pub use undo::{Undo, UndoList};
