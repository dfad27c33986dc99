//! The calls of a session on a card.

use core::ptr::NonNull;

use session::{Books, Call, Outcome, Question, Refused, Session, Setup, Undo, UndoList, LIST_BYTES};
use uefi::boot::{self, Tpl};

use crate::bus::PciIoBus;
use crate::pci_io::PciIoProtocol;

/// A card with its session and the caller's undo list; some 14 KB, so not for the stack.
pub struct Card<'a> {
    session: Session,
    bus: PciIoBus,
    undo: UndoList<'a>,
}

/// The library uses the red zone, and under UEFI interrupts run on the same stack; so it is called with interrupts off.
fn with_interrupts_off<T>(call: impl FnOnce() -> T) -> T {
    // SAFETY: nothing is called meanwhile but the library, which calls nothing of UEFI.
    let _tpl = unsafe { boot::raise_tpl(Tpl::HIGH_LEVEL) };
    call()
}

impl<'a> Card<'a> {
    /// A card that was not opened yet, with room for undo records.
    ///
    /// # Safety
    /// `pci` is a live instance of `EFI_PCI_IO_PROTOCOL` that no one else uses, as long as there is this card.
    pub unsafe fn new(pci: NonNull<PciIoProtocol>, records: &'a mut [Undo]) -> Card<'a> {
        // SAFETY: the caller's.
        let bus = unsafe { PciIoBus::new(pci) };
        Card { session: with_interrupts_off(Session::new), bus, undo: UndoList::new(records) }
    }

    /// Makes a call and answers its questions: the library with interrupts off, the bus at the caller's own level.
    pub fn call(&mut self, call: Call) -> Result<Outcome, Refused> {
        let Card { session, bus, undo } = self;
        let mut list = [0; LIST_BYTES];
        let mut question = with_interrupts_off(|| session.begin(call, undo))?;
        while question != Question::Finished {
            let answer = session.ask(bus, &mut list);
            question = with_interrupts_off(|| session.answer(answer, undo))?;
        }
        with_interrupts_off(|| session.result())
    }

    /// Puts a record on the undo list.
    pub fn push_undo(&mut self, record: Undo) -> Result<(), Refused> {
        with_interrupts_off(|| self.undo.push(record))
    }

    /// The undo list, for its marks and records.
    pub fn undo(&self) -> &UndoList<'a> {
        &self.undo
    }

    /// What the opening has found out; only of an open session.
    pub fn setup(&self) -> Result<Setup, Refused> {
        with_interrupts_off(|| self.session.setup())
    }

    /// What the session holds.
    pub fn books(&self) -> Result<Books, Refused> {
        with_interrupts_off(|| self.session.books())
    }

    /// The session, for its mailboxes.
    pub fn session(&self) -> &Session {
        &self.session
    }

    /// The bus, for the memory of lent buffers.
    pub fn bus(&self) -> &PciIoBus {
        &self.bus
    }
}
