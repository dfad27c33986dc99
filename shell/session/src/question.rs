//! Questions and answers.

use crate::abi::{self, Turn, Words};
use crate::ffi::Told;

/// An attribute call of PCI I/O.
#[derive(Clone, Copy, PartialEq, Eq, Debug)]
pub enum Attribute {
    /// `EfiPciIoAttributeOperationGet`.
    Get,
    /// `EfiPciIoAttributeOperationSet`.
    Set,
    /// `EfiPciIoAttributeOperationEnable`.
    Enable,
    /// `EfiPciIoAttributeOperationSupported`.
    Supported,
}

impl Attribute {
    /// The number that UEFI gives the operation.
    pub fn number(self) -> u8 {
        match self {
            Attribute::Get => 0,
            Attribute::Set => 1,
            Attribute::Enable => 2,
            Attribute::Supported => 4,
        }
    }

    pub(crate) fn of(number: u64) -> Option<Attribute> {
        let all = [Attribute::Get, Attribute::Set, Attribute::Enable, Attribute::Supported];
        all.into_iter().find(|a| u64::from(a.number()) == number)
    }
}

/// What a call asks. `Bus` says what is to be done for each.
#[derive(Clone, Copy, PartialEq, Eq, Debug)]
pub enum Question {
    /// Nothing is asked: the call has its result.
    Finished,
    /// `Bus::config_read16`.
    ConfigRead16 {
        /// In configuration space.
        offset: u16,
    },
    /// `Bus::config_read32`.
    ConfigRead32 {
        /// In configuration space.
        offset: u16,
    },
    /// `Bus::config_write16`.
    ConfigWrite16 {
        /// In configuration space.
        offset: u16,
        /// What is written.
        value: u16,
    },
    /// `Bus::config_write32`.
    ConfigWrite32 {
        /// In configuration space.
        offset: u16,
        /// What is written.
        value: u32,
    },
    /// `Bus::register_read`.
    RegisterRead {
        /// The index that PCI I/O has for the BAR.
        bar: u8,
        /// From the BAR's beginning.
        offset: u64,
    },
    /// `Bus::register_write`.
    RegisterWrite {
        /// The index that PCI I/O has for the BAR.
        bar: u8,
        /// From the BAR's beginning.
        offset: u64,
        /// What is written, as it stands.
        value: u32,
    },
    /// `Bus::attributes`.
    Attributes {
        /// The operation.
        call: Attribute,
        /// What is set or enabled.
        value: u64,
    },
    /// `Bus::resource`.
    Resource {
        /// The index that PCI I/O has for the BAR.
        bar: u8,
    },
    /// `Bus::stall`.
    Stall {
        /// Microseconds.
        us: u32,
    },
    /// `Bus::allocate`.
    Allocate {
        /// How many pages of 4,096 bytes.
        pages: u64,
    },
    /// `Bus::map`.
    Map {
        /// Of the pages.
        handle: u64,
        /// All bytes of the pages.
        bytes: u64,
    },
    /// `Bus::unmap`.
    Unmap {
        /// Of the pages.
        handle: u64,
    },
    /// `Bus::free`.
    Free {
        /// Of the pages.
        handle: u64,
        /// How many there are.
        pages: u64,
    },
    /// `Bus::fence`.
    Fence,
}

impl Question {
    /// The question in the first four words; `None` where they are none.
    pub fn of(w: &Words) -> Option<Question> {
        Question::said(&[w.at(0), w.at(1), w.at(2), w.at(3), 0])
    }

    /// The question that a call says.
    pub(crate) fn said(&[kind, a, b, c, _]: &Turn) -> Option<Question> {
        let offset = u16::try_from(a);
        Some(match kind {
            abi::FINISHED => Question::Finished,
            abi::CONFIG_READ16 => Question::ConfigRead16 { offset: offset.ok()? },
            abi::CONFIG_READ32 => Question::ConfigRead32 { offset: offset.ok()? },
            abi::CONFIG_WRITE16 => Question::ConfigWrite16 { offset: offset.ok()?, value: b.try_into().ok()? },
            abi::CONFIG_WRITE32 => Question::ConfigWrite32 { offset: offset.ok()?, value: b.try_into().ok()? },
            abi::REG_READ => Question::RegisterRead { bar: a.try_into().ok()?, offset: b },
            abi::REG_WRITE => Question::RegisterWrite { bar: a.try_into().ok()?, offset: b, value: c.try_into().ok()? },
            abi::ATTRIBUTES => Question::Attributes { call: Attribute::of(a)?, value: b },
            abi::RESOURCE => Question::Resource { bar: a.try_into().ok()? },
            abi::STALL => Question::Stall { us: a.try_into().ok()? },
            abi::ALLOCATE => Question::Allocate { pages: a },
            abi::MAP => Question::Map { handle: a, bytes: b },
            abi::UNMAP => Question::Unmap { handle: a },
            abi::FREE => Question::Free { handle: a, pages: b },
            abi::FENCE => Question::Fence,
            _ => return None,
        })
    }

    /// As a call says it, with no undo records.
    pub(crate) fn turn(self) -> Turn {
        let of = |kind: u64, a: u64, b: u64| [kind, a, b, 0, 0];
        match self {
            Question::Finished => of(abi::FINISHED, 0, 0),
            Question::ConfigRead16 { offset } => of(abi::CONFIG_READ16, offset.into(), 0),
            Question::ConfigRead32 { offset } => of(abi::CONFIG_READ32, offset.into(), 0),
            Question::ConfigWrite16 { offset, value } => of(abi::CONFIG_WRITE16, offset.into(), value.into()),
            Question::ConfigWrite32 { offset, value } => of(abi::CONFIG_WRITE32, offset.into(), value.into()),
            Question::RegisterRead { bar, offset } => of(abi::REG_READ, bar.into(), offset),
            Question::RegisterWrite { bar, offset, value } => [abi::REG_WRITE, bar.into(), offset, value.into(), 0],
            Question::Attributes { call, value } => of(abi::ATTRIBUTES, call.number().into(), value),
            Question::Resource { bar } => of(abi::RESOURCE, bar.into(), 0),
            Question::Stall { us } => of(abi::STALL, us.into(), 0),
            Question::Allocate { pages } => of(abi::ALLOCATE, pages, 0),
            Question::Map { handle, bytes } => of(abi::MAP, handle, bytes),
            Question::Unmap { handle } => of(abi::UNMAP, handle, 0),
            Question::Free { handle, pages } => of(abi::FREE, handle, pages),
            Question::Fence => of(abi::FENCE, 0, 0),
        }
    }
}

/// A good map: where the device sees the pages, and how many bytes were mapped, whatever was asked for.
#[derive(Clone, Copy, PartialEq, Eq, Debug)]
pub struct Mapping {
    /// The device address.
    pub address: u64,
    /// What `Map` left in its count of bytes.
    pub bytes: u64,
}

/// What came of a question.
#[derive(Clone, Copy, PartialEq, Eq, Debug)]
pub enum Answer<'a> {
    /// A config read of 16 bits.
    Word(u16),
    /// A config read of 32 bits, or a register as the bus carries it.
    Dword(u32),
    /// The attributes; any for set and enable.
    Qword(u64),
    /// A write, stall, unmap, free or fence.
    Done,
    /// Any question but a stall and a fence, which cannot fail.
    Failed,
    /// The pages that were allocated, by any number.
    Handle(u64),
    /// A map that was good, of whatever size.
    Mapped(Mapping),
    /// A resource list.
    List(&'a [u8]),
}

impl<'a> Answer<'a> {
    /// As it crosses C linkage.
    pub fn told(self) -> Told<'a> {
        let of = |kind: u32, a: u64, b: u64| Told { kind, a, b, resource: &[] };
        match self {
            Answer::Word(v) => of(abi::WORD, v.into(), 0),
            Answer::Dword(v) => of(abi::DWORD, v.into(), 0),
            Answer::Qword(v) => of(abi::QWORD, v, 0),
            Answer::Done => of(abi::DONE, 0, 0),
            Answer::Failed => of(abi::FAILED, 0, 0),
            Answer::Handle(h) => of(abi::HANDLE, h, 0),
            Answer::Mapped(m) => of(abi::MAPPED, m.address, m.bytes),
            Answer::List(bytes) => Told { resource: bytes, ..of(abi::LIST, 0, 0) },
        }
    }

    /// What was told, back as an answer.
    pub(crate) fn of(t: Told<'a>) -> Answer<'a> {
        match t.kind {
            abi::WORD => Answer::Word(t.a as u16),
            abi::DWORD => Answer::Dword(t.a as u32),
            abi::QWORD => Answer::Qword(t.a),
            abi::DONE => Answer::Done,
            abi::HANDLE => Answer::Handle(t.a),
            abi::MAPPED => Answer::Mapped(Mapping { address: t.a, bytes: t.b }),
            abi::LIST => Answer::List(t.resource),
            _ => Answer::Failed,
        }
    }
}
