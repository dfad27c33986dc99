//! A ConnectX-3 card over `EFI_PCI_IO_PROTOCOL`: all that docs/SHELL.md asks of a loader, in Rust.
//!
//! `pci_io` is the protocol as the UEFI specification has it, `bus` answers a session's questions from it, `card` makes the
//! calls of a session with interrupts off, and `visit` is a use of it from opening to close. They need no allocation and no
//! `std`, and may be taken as they are.
//!
//! It compiles against the stub `uefi` beside it, and uses of that crate only what the real one has under the same name:
//! `Status`, `boot::stall`, `boot::free_pool`, `boot::raise_tpl`, `boot::Tpl`, and the attribute `unsafe_protocol`. In a
//! UEFI program `uefi::boot::open_protocol_exclusive::<PciIoProtocol>` gives the card's instance, whose address is what
//! `Card::new` takes:
//!
//! ```
//! # use core::ptr::NonNull;
//! # use loader::{Card, PciIoProtocol, Visit};
//! # use session::{Refused, Undo};
//! /// # Safety
//! /// `pci` is a live instance that no one else uses.
//! unsafe fn bring_up(pci: NonNull<PciIoProtocol>, records: &mut [Undo]) -> Result<Visit, Refused> {
//!     let mut card = Card::new(pci, records);
//!     loader::visit(&mut card)
//! }
//! ```

#![no_std]
#![warn(missing_docs)]

mod bus;
mod card;
// Its members are the specification's.
#[allow(missing_docs)]
pub mod pci_io;
mod visit;

pub use bus::PciIoBus;
pub use card::Card;
pub use pci_io::PciIoProtocol;
pub use visit::{visit, Used, Visit};
