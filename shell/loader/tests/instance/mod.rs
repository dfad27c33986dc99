//! An instance of `EFI_PCI_IO_PROTOCOL`, and the boot services, whose functions are served by the simulated card and host.

use core::ffi::c_void;
use core::ptr::{self, NonNull};
use core::time::Duration;
use std::cell::{Cell, RefCell};
use std::rc::Rc;

use loader::pci_io::*;
use uefi::boot::{Firmware, Tpl};
use uefi::Status;
use world::bus::{Allocation, AttributeCall, Bus, Handle, Resource};
use world::memory::Pages;
use world::plan::Plan;
use world::traced::Traced;
use world::{World, PAGE};

use EfiPciIoProtocolWidth::{EfiPciIoWidthUint16, EfiPciIoWidthUint32};

/// What a call that failed leaves where an answer would be.
const GARBAGE: u8 = 0x5a;

/// The card, the host, and what the firmware keeps.
pub struct Machine {
    pub bus: RefCell<Traced<World>>,
    /// What a failed call says: an error or a warning.
    bad: Status,
    /// Host address and handle of everything that was handed out.
    buffers: RefCell<Vec<(*mut c_void, Handle)>>,
    /// Pages that a call handed over though it failed, for a bus that does not look at warnings.
    scratch: RefCell<Vec<Pages>>,
    /// The resource lists not yet given back, by BAR index.
    lists: RefCell<Vec<(u8, Vec<u8>)>>,
    tpl: Cell<Tpl>,
    /// How often the level was raised.
    pub raised: Cell<u64>,
    /// What no loader may do.
    pub misuse: RefCell<Vec<String>>,
}

/// The protocol stands first, so that a function finds the machine behind its `this`.
#[repr(C)]
pub struct Instance {
    protocol: PciIoProtocol,
    pub machine: Rc<Machine>,
}

impl Instance {
    pub fn new(plan: Plan, bad: Status) -> Box<Instance> {
        let machine = Machine {
            bus: RefCell::new(Traced::new(World::new(plan))),
            bad,
            buffers: RefCell::default(),
            scratch: RefCell::default(),
            lists: RefCell::default(),
            tpl: Cell::new(Tpl::APPLICATION),
            raised: Cell::new(0),
            misuse: RefCell::default(),
        };
        Box::new(Instance { protocol: protocol(), machine: Rc::new(machine) })
    }

    /// Where the protocol is, as a handle's interface has it.
    pub fn pci(&mut self) -> NonNull<PciIoProtocol> {
        NonNull::from(self).cast()
    }
}

impl Machine {
    fn misused(&self, what: impl Into<String>) {
        self.misuse.borrow_mut().push(what.into());
    }

    /// One bus call, which no one makes with interrupts off.
    fn ask<T>(&self, question: impl FnOnce(&mut Traced<World>) -> T) -> T {
        if self.tpl.get() != Tpl::APPLICATION {
            self.misused("a bus call at a raised level");
        }
        question(&mut self.bus.borrow_mut())
    }

    fn status(&self, good: bool) -> Status {
        if good {
            Status::SUCCESS
        } else {
            self.bad
        }
    }

    /// Hands an answer over; a call that failed leaves something else there.
    unsafe fn hand_over<T>(&self, answer: Option<T>, to: *mut c_void) -> Status {
        let status = self.status(answer.is_some());
        match answer {
            Some(v) => unsafe { to.cast::<T>().write(v) },
            None => unsafe { to.cast::<u8>().write_bytes(GARBAGE, size_of::<T>()) },
        }
        status
    }

    /// A read of one value to the caller's buffer, or a write of the value there.
    unsafe fn access<T, const WRITE: bool>(
        &self,
        buffer: *mut c_void,
        read: impl FnOnce(&mut Traced<World>) -> Option<T>,
        write: impl FnOnce(&mut Traced<World>, T) -> bool,
    ) -> Status {
        if WRITE {
            let value = unsafe { buffer.cast::<T>().read() };
            self.status(self.ask(|b| write(b, value)))
        } else {
            unsafe { self.hand_over(self.ask(read), buffer) }
        }
    }

    fn handle(&self, host: *mut c_void) -> Option<Handle> {
        self.buffers.borrow().iter().rev().find(|(p, _)| *p == host).map(|(_, h)| *h)
    }

    /// What `Map` gives for `Unmap`; null for the first buffer.
    fn token(handle: Handle) -> *mut c_void {
        ptr::without_provenance_mut((handle.0 as usize - 1) << 8)
    }

    fn of_token(token: *mut c_void) -> Handle {
        Handle((token.addr() >> 8) as u64 + 1)
    }

    /// The lists that were not given back.
    pub fn lists_out(&self) -> usize {
        self.lists.borrow().len()
    }

    pub fn level(&self) -> Tpl {
        self.tpl.get()
    }
}

impl Firmware for Machine {
    fn stall(&self, time: Duration) {
        self.ask(|b| b.stall(time.as_micros() as u64));
    }

    fn free_pool(&self, memory: NonNull<u8>) -> Status {
        let at = self.lists.borrow().iter().position(|(_, l)| ptr::eq(l.as_ptr(), memory.as_ptr()));
        let Some(at) = at else {
            self.misused("FreePool of what is no list");
            return Status::INVALID_PARAMETER;
        };
        let (index, _) = self.lists.borrow_mut().remove(at);
        self.ask(|b| b.free_pool(index));
        Status::SUCCESS
    }

    fn raise_tpl(&self, tpl: Tpl) -> Tpl {
        if tpl != Tpl::HIGH_LEVEL {
            self.misused("a level at which interrupts are on");
        }
        self.raised.set(self.raised.get() + 1);
        self.tpl.replace(tpl)
    }

    fn restore_tpl(&self, old: Tpl) {
        self.tpl.set(old);
    }
}

fn protocol() -> PciIoProtocol {
    PciIoProtocol {
        poll_mem: poll,
        poll_io: poll,
        mem: Access { read: mem::<false>, write: mem::<true> },
        io: Access { read: io, write: io },
        pci: Access { read: pci::<false>, write: pci::<true> },
        copy_mem,
        map,
        unmap,
        allocate_buffer,
        free_buffer,
        flush,
        get_location,
        attributes,
        get_bar_attributes,
        set_bar_attributes,
        rom_size: 0,
        rom_image: ptr::null_mut(),
    }
}

// SAFETY (all functions below): `this` is an `Instance`'s protocol, and pointers are to live variables of the type that the
// width and the UEFI signature say.

unsafe fn machine(this: *mut PciIoProtocol) -> Rc<Machine> {
    unsafe { (*this.cast::<Instance>()).machine.clone() }
}

/// A call that no session makes.
unsafe fn unsupported(this: *mut PciIoProtocol, what: &str) -> Status {
    unsafe { machine(this) }.misused(what);
    Status::UNSUPPORTED
}

/// `Pci.Read`, or `Pci.Write`.
unsafe extern "efiapi" fn pci<const WRITE: bool>(
    this: *mut PciIoProtocol,
    width: EfiPciIoProtocolWidth,
    offset: u32,
    count: usize,
    buffer: *mut c_void,
) -> Status {
    let m = unsafe { machine(this) };
    match (width, count) {
        (EfiPciIoWidthUint16, 1) => unsafe {
            m.access::<_, WRITE>(buffer, |b| b.config_read16(offset), |b, v| b.config_write16(offset, v))
        },
        (EfiPciIoWidthUint32, 1) => unsafe {
            m.access::<_, WRITE>(buffer, |b| b.config_read32(offset), |b, v| b.config_write32(offset, v))
        },
        _ => unsafe { unsupported(this, "a config access of another width") },
    }
}

/// `Mem.Read`, or `Mem.Write`.
unsafe extern "efiapi" fn mem<const WRITE: bool>(
    this: *mut PciIoProtocol,
    width: EfiPciIoProtocolWidth,
    bar: u8,
    offset: u64,
    count: usize,
    buffer: *mut c_void,
) -> Status {
    let m = unsafe { machine(this) };
    match (width, count) {
        (EfiPciIoWidthUint32, 1) => unsafe {
            m.access::<_, WRITE>(buffer, |b| b.register_read(bar, offset), |b, v| b.register_write(bar, offset, v))
        },
        _ => unsafe { unsupported(this, "a register access of another width") },
    }
}

/// Pages that are mapped must have been zeroed: they come with anything in them.
unsafe extern "efiapi" fn map(
    this: *mut PciIoProtocol,
    operation: EfiPciIoProtocolOperation,
    host: *mut c_void,
    bytes: *mut usize,
    device: *mut u64,
    mapping: *mut *mut c_void,
) -> Status {
    let m = unsafe { machine(this) };
    let Some(handle) = m.handle(host) else {
        return unsafe { unsupported(this, "a map of what was not handed out") };
    };
    if operation != EfiPciIoProtocolOperation::EfiPciIoOperationBusMasterCommonBuffer {
        m.misused("a map that is no common buffer");
    }
    let wanted = unsafe { bytes.read() } as u64;
    if m.bus.borrow().pages(handle).read(0, wanted).iter().any(|b| *b != 0) {
        m.misused("pages mapped that were not zeroed");
    }
    let answer = m.ask(|b| b.map(handle, wanted));
    if let Some(a) = answer {
        unsafe { (bytes.write(a.bytes as usize), mapping.write(Machine::token(handle))) };
    }
    unsafe { device.write(answer.map_or(PAGE, |a| a.address)) };
    m.status(answer.is_some())
}

unsafe extern "efiapi" fn unmap(this: *mut PciIoProtocol, mapping: *mut c_void) -> Status {
    let m = unsafe { machine(this) };
    let handle = Machine::of_token(mapping);
    if !m.buffers.borrow().iter().any(|(_, h)| *h == handle) {
        return unsafe { unsupported(this, "an unmap with no token") };
    }
    m.status(m.ask(|b| b.unmap(handle)))
}

unsafe extern "efiapi" fn allocate_buffer(
    this: *mut PciIoProtocol,
    kind: EfiAllocateType,
    memory: EfiMemoryType,
    pages: usize,
    host: *mut *mut c_void,
    attributes: u64,
) -> Status {
    let m = unsafe { machine(this) };
    if (kind, memory, attributes) != (EfiAllocateType::AllocateAnyPages, EfiMemoryType::EfiBootServicesData, 0) {
        m.misused("an allocation of another kind");
    }
    let answer = m.ask(|b| b.allocate(pages as u64));
    let given = match answer {
        Allocation::Pages(handle) => {
            let p = m.bus.borrow().hand_out(handle).cast();
            m.buffers.borrow_mut().push((p, handle));
            p
        }
        Allocation::Null => ptr::null_mut(),
        Allocation::Failed => {
            let scratch = Pages::zeroed(pages.min(4096) as u64);
            let p = scratch.as_ptr().cast();
            m.scratch.borrow_mut().push(scratch);
            p
        }
    };
    unsafe { host.write(given) };
    m.status(answer != Allocation::Failed)
}

unsafe extern "efiapi" fn free_buffer(this: *mut PciIoProtocol, pages: usize, host: *mut c_void) -> Status {
    let m = unsafe { machine(this) };
    match m.handle(host) {
        Some(handle) => m.status(m.ask(|b| b.free(handle, pages as u64))),
        None => unsafe { unsupported(this, "a free of what was not handed out") },
    }
}

unsafe extern "efiapi" fn attributes(
    this: *mut PciIoProtocol,
    operation: EfiPciIoProtocolAttributeOperation,
    attributes: u64,
    result: *mut u64,
) -> Status {
    let m = unsafe { machine(this) };
    match AttributeCall::from_number(operation as u32) {
        Some(call) => unsafe { m.hand_over(m.ask(|b| b.attributes(call, attributes)), result.cast()) },
        None => unsafe { unsupported(this, "an attribute call of another operation") },
    }
}

unsafe extern "efiapi" fn get_bar_attributes(
    this: *mut PciIoProtocol,
    bar: u8,
    supports: *mut u64,
    resources: *mut *mut c_void,
) -> Status {
    let m = unsafe { machine(this) };
    if !supports.is_null() {
        m.misused("the attributes that a BAR supports");
    }
    let answer = m.ask(|b| b.resource(bar));
    if let Resource::List(list) = &answer {
        unsafe { resources.write(list.as_ptr().cast_mut().cast()) };
    }
    let good = answer != Resource::Failed;
    if let Resource::List(list) = answer {
        m.lists.borrow_mut().push((bar, list));
    }
    m.status(good)
}

unsafe extern "efiapi" fn poll(
    this: *mut PciIoProtocol,
    _: EfiPciIoProtocolWidth,
    _: u8,
    _: u64,
    _: u64,
    _: u64,
    _: u64,
    _: *mut u64,
) -> Status {
    unsafe { unsupported(this, "PollMem or PollIo") }
}

unsafe extern "efiapi" fn io(
    this: *mut PciIoProtocol,
    _: EfiPciIoProtocolWidth,
    _: u8,
    _: u64,
    _: usize,
    _: *mut c_void,
) -> Status {
    unsafe { unsupported(this, "Io") }
}

unsafe extern "efiapi" fn copy_mem(
    this: *mut PciIoProtocol,
    _: EfiPciIoProtocolWidth,
    _: u8,
    _: u64,
    _: u8,
    _: u64,
    _: usize,
) -> Status {
    unsafe { unsupported(this, "CopyMem") }
}

unsafe extern "efiapi" fn flush(this: *mut PciIoProtocol) -> Status {
    unsafe { unsupported(this, "Flush") }
}

unsafe extern "efiapi" fn get_location(
    this: *mut PciIoProtocol,
    _: *mut usize,
    _: *mut usize,
    _: *mut usize,
    _: *mut usize,
) -> Status {
    unsafe { unsupported(this, "GetLocation") }
}

unsafe extern "efiapi" fn set_bar_attributes(
    this: *mut PciIoProtocol,
    _: u64,
    _: u8,
    _: *mut u64,
    _: *mut u64,
) -> Status {
    unsafe { unsupported(this, "SetBarAttributes") }
}
