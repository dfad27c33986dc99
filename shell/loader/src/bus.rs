//! The answers to a session's questions, from `EFI_PCI_IO_PROTOCOL` and the boot services alone. docs/SHELL.md has the same
//! as a table.

use core::ffi::c_void;
use core::ptr::{self, NonNull};
use core::sync::atomic::{self, Ordering};
use core::time::Duration;

use session::abi::LENT_BUFFERS;
use session::{Attribute, Bus, Fence, Mailbox, Mapping};
use uefi::boot;

use crate::pci_io::EfiAllocateType::AllocateAnyPages;
use crate::pci_io::EfiMemoryType::EfiBootServicesData;
use crate::pci_io::EfiPciIoProtocolAttributeOperation::{self as Operation, *};
use crate::pci_io::EfiPciIoProtocolOperation::EfiPciIoOperationBusMasterCommonBuffer;
use crate::pci_io::EfiPciIoProtocolWidth::{self as Width, EfiPciIoWidthUint16, EfiPciIoWidthUint32};
use crate::pci_io::PciIoProtocol;

const PAGE: usize = 4096;
/// What a session holds at most: two mailboxes, two areas, fourteen ranges, and the lent buffers.
const PLACES: usize = 2 + 2 + 14 + LENT_BUFFERS;
/// ACPI's resource lists: a QWORD address space descriptor has a length of 16 bits behind its tag, not counting these three
/// bytes, and then its type; the end tag has a checksum behind it.
const QWORD_SPACE: usize = 0x8a;
const HEADER: usize = 3;
const MEMORY: usize = 0;
const END_TAG: usize = 0x79;
const END_BYTES: usize = 2;

/// Pages known by a handle, which is their place.
#[derive(Clone, Copy)]
struct Pages {
    /// None where the place is free.
    host: Option<NonNull<u8>>,
    /// What `Map` gave for `Unmap`; it may be null.
    mapping: *mut c_void,
}

const NONE: Pages = Pages { host: None, mapping: ptr::null_mut() };

/// A session's bus over a card's instance of the protocol.
pub struct PciIoBus {
    pci: NonNull<PciIoProtocol>,
    pages: [Pages; PLACES],
}

impl PciIoBus {
    /// # Safety
    /// `pci` is a live instance of `EFI_PCI_IO_PROTOCOL` that no one else uses, as long as there is this bus.
    pub unsafe fn new(pci: NonNull<PciIoProtocol>) -> PciIoBus {
        PciIoBus { pci, pages: [NONE; PLACES] }
    }

    /// Where the CPU sees the pages under a handle: those of a lent buffer are the client's to use.
    pub fn host(&self, handle: u64) -> Option<NonNull<u8>> {
        self.at(handle)?.host
    }

    fn at(&self, handle: u64) -> Option<&Pages> {
        self.pages.get(usize::try_from(handle).ok()?)
    }

    fn at_mut(&mut self, handle: u64) -> Option<&mut Pages> {
        self.pages.get_mut(usize::try_from(handle).ok()?)
    }

    fn table(&self) -> &PciIoProtocol {
        // SAFETY: `new` asks for a live instance.
        unsafe { self.pci.as_ref() }
    }

    /// `Pci.Read` of one value; the type has the width's bytes.
    fn config_read<T: Default>(&mut self, width: Width, offset: u16) -> Option<T> {
        let mut value = T::default();
        let read = self.table().pci.read;
        // SAFETY: a live instance, and room for one value of that width.
        let status = unsafe { read(self.pci.as_ptr(), width, offset.into(), 1, (&raw mut value).cast()) };
        status.is_success().then_some(value)
    }

    /// `Pci.Write` of one value.
    fn config_write<T>(&mut self, width: Width, offset: u16, mut value: T) -> bool {
        let write = self.table().pci.write;
        // SAFETY: a live instance, and one value of that width.
        unsafe { write(self.pci.as_ptr(), width, offset.into(), 1, (&raw mut value).cast()) }.is_success()
    }

    /// The pages behind a mailbox; none where the handle is not one of ours, and then nothing is copied.
    fn mailbox(&self, handle: u64) -> *mut u8 {
        self.host(handle).map_or(ptr::null_mut(), NonNull::as_ptr)
    }
}

/// UEFI's operation of an attribute call.
fn operation(call: Attribute) -> Operation {
    match call {
        Attribute::Get => EfiPciIoAttributeOperationGet,
        Attribute::Set => EfiPciIoAttributeOperationSet,
        Attribute::Enable => EfiPciIoAttributeOperationEnable,
        Attribute::Supported => EfiPciIoAttributeOperationSupported,
    }
}

/// The bytes of a resource list that a session looks at, but not more than there is room for: with the first memory
/// descriptor, the end tag or an unknown tag. What lies behind may be no part of the list, and is not read.
///
/// # Safety
/// `list` is a resource list of ACPI, at least as far as these bytes.
unsafe fn list_bytes(list: NonNull<u8>, room: usize) -> usize {
    // SAFETY: a byte of a descriptor, or a tag behind one that is passed over.
    let byte = |i: usize| usize::from(unsafe { list.as_ptr().add(i).read() });
    let mut n = 0;
    while n < room {
        match byte(n) {
            QWORD_SPACE => {
                let end = n + HEADER + (byte(n + 1) | byte(n + 2) << 8);
                if byte(n + HEADER) == MEMORY {
                    return room.min(end);
                }
                n = end;
            }
            END_TAG => return room.min(n + END_BYTES),
            _ => return n + 1,
        }
    }
    room
}

/// To a page, byte by byte, so that the device sees it.
fn to_page(page: *mut u8, mailbox: &Mailbox) {
    if !page.is_null() {
        for (i, b) in mailbox.iter().enumerate() {
            // SAFETY: a page has as many bytes as a mailbox.
            unsafe { page.add(i).write_volatile(*b) };
        }
    }
}

/// From a page, which the device has written.
fn from_page(page: *mut u8, mailbox: &mut Mailbox) {
    if !page.is_null() {
        for (i, b) in mailbox.iter_mut().enumerate() {
            // SAFETY: a page has as many bytes as a mailbox.
            *b = unsafe { page.add(i).read_volatile() };
        }
    }
}

/// Only `EFI_SUCCESS` is good; a warning is not.
impl Bus for PciIoBus {
    fn config_read16(&mut self, offset: u16) -> Option<u16> {
        self.config_read(EfiPciIoWidthUint16, offset)
    }

    fn config_read32(&mut self, offset: u16) -> Option<u32> {
        self.config_read(EfiPciIoWidthUint32, offset)
    }

    fn config_write16(&mut self, offset: u16, value: u16) -> bool {
        self.config_write(EfiPciIoWidthUint16, offset, value)
    }

    fn config_write32(&mut self, offset: u16, value: u32) -> bool {
        self.config_write(EfiPciIoWidthUint32, offset, value)
    }

    /// Registers go to and from the bus as they are.
    fn register_read(&mut self, bar: u8, offset: u64) -> Option<u32> {
        let mut value = 0u32;
        let read = self.table().mem.read;
        // SAFETY: a live instance, and room for one value of that width.
        let status = unsafe { read(self.pci.as_ptr(), EfiPciIoWidthUint32, bar, offset, 1, (&raw mut value).cast()) };
        status.is_success().then_some(value)
    }

    fn register_write(&mut self, bar: u8, offset: u64, mut value: u32) -> bool {
        let write = self.table().mem.write;
        // SAFETY: a live instance, and one value of that width.
        unsafe { write(self.pci.as_ptr(), EfiPciIoWidthUint32, bar, offset, 1, (&raw mut value).cast()) }.is_success()
    }

    fn attributes(&mut self, call: Attribute, value: u64) -> Option<u64> {
        let mut result = 0;
        let attributes = self.table().attributes;
        // SAFETY: a live instance, and room for the result.
        let status = unsafe { attributes(self.pci.as_ptr(), operation(call), value, &mut result) };
        status.is_success().then_some(result)
    }

    /// A null list is a failure, though the call was good. Any other is copied and given back.
    fn resource(&mut self, bar: u8, list: &mut [u8]) -> Option<usize> {
        let mut resources = ptr::null_mut();
        let get = self.table().get_bar_attributes;
        // SAFETY: a live instance, and room for the list's address.
        let status = unsafe { get(self.pci.as_ptr(), bar, ptr::null_mut(), &mut resources) };
        let resources = NonNull::new(resources.cast::<u8>()).filter(|_| status.is_success())?;
        // SAFETY: a list that the firmware allocated from pool; so many bytes of it are read, and it is not used again.
        unsafe {
            let n = list_bytes(resources, list.len());
            ptr::copy_nonoverlapping(resources.as_ptr(), list.as_mut_ptr(), n);
            let _ = boot::free_pool(resources);
            Some(n)
        }
    }

    fn stall(&mut self, us: u32) {
        boot::stall(Duration::from_micros(us.into()));
    }

    /// Null pages are a failure, though the call was good. Others are zeroed, and known by their place from here on.
    fn allocate(&mut self, pages: u64) -> Option<u64> {
        let place = self.pages.iter().position(|p| p.host.is_none())?;
        let count = usize::try_from(pages).ok()?;
        let bytes = count.checked_mul(PAGE)?;
        let mut host = ptr::null_mut();
        let allocate = self.table().allocate_buffer;
        // SAFETY: a live instance, and room for the address.
        let status = unsafe { allocate(self.pci.as_ptr(), AllocateAnyPages, EfiBootServicesData, count, &mut host, 0) };
        let host = NonNull::new(host.cast::<u8>()).filter(|_| status.is_success())?;
        // SAFETY: so many pages that were handed over.
        unsafe { host.as_ptr().write_bytes(0, bytes) };
        self.pages[place] = Pages { host: Some(host), ..NONE };
        u64::try_from(place).ok()
    }

    /// The session itself looks at the size that was mapped.
    fn map(&mut self, handle: u64, bytes: u64) -> Option<Mapping> {
        let host = self.host(handle)?;
        let mut mapped = usize::try_from(bytes).ok()?;
        let (mut address, mut mapping) = (0, ptr::null_mut());
        let (pci, common, map) = (self.pci.as_ptr(), EfiPciIoOperationBusMasterCommonBuffer, self.table().map);
        // SAFETY: a live instance, pages that were handed over, and room for what is given.
        let status = unsafe { map(pci, common, host.as_ptr().cast(), &mut mapped, &mut address, &mut mapping) };
        if !status.is_success() {
            return None;
        }
        self.at_mut(handle)?.mapping = mapping;
        Some(Mapping { address, bytes: u64::try_from(mapped).ok()? })
    }

    fn unmap(&mut self, handle: u64) -> bool {
        let unmap = self.table().unmap;
        // SAFETY: a live instance, and the token of that map.
        self.at(handle).is_some_and(|p| unsafe { unmap(self.pci.as_ptr(), p.mapping) }.is_success())
    }

    /// The place is free from here on, whatever came of it.
    fn free(&mut self, handle: u64, pages: u64) -> bool {
        let (pci, free) = (self.pci.as_ptr(), self.table().free_buffer);
        let host = self.at_mut(handle).and_then(|p| core::mem::replace(p, NONE).host);
        let (Some(host), Ok(count)) = (host, usize::try_from(pages)) else {
            return false;
        };
        // SAFETY: a live instance, and pages that were handed over; the session asks for this once the card uses them no more.
        unsafe { free(pci, count, host.as_ptr().cast()) }.is_success()
    }

    fn fence(&mut self, fence: Fence<'_>) {
        atomic::fence(Ordering::SeqCst);
        match fence {
            Fence::ToDevice { inbox, inbox_pages, outbox, outbox_pages } => {
                to_page(self.mailbox(inbox_pages), inbox);
                to_page(self.mailbox(outbox_pages), outbox);
            }
            Fence::FromDevice { outbox, outbox_pages } => from_page(self.mailbox(outbox_pages), outbox),
        }
        atomic::fence(Ordering::SeqCst);
    }
}
