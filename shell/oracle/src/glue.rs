//! PCI I/O's functions and the boot services, answered by a `Bus`.

use core::ffi::c_void;
use core::ptr::{self, NonNull};
use core::time::Duration;
use std::any::Any;
use std::cell::{Cell, RefCell};
use std::panic::{catch_unwind, AssertUnwindSafe};
use std::rc::Rc;

use uefi::boot::{self, Firmware};
use uefi::Status;
use world::bus::{Allocation, AttributeCall, Bus, Handle, Resource};
use world::registers::{BAR_DCS, GO_WRITE};

use crate::console::{Kind, Line};
use crate::pci::oracle_access::{table, Functions};
use crate::pci::PciIo;

/// Operation, type and width numbers of UEFI that pci.rs passes.
const WIDTH_UINT16: u32 = 1;
const WIDTH_UINT32: u32 = 2;
const MAP_COMMON_BUFFER: u32 = 2;
const ALLOCATE_ANY_PAGES: u32 = 0;
const BOOT_SERVICES_DATA: u32 = 4;
/// The shortest list that pci.rs reads without passing its end.
const DESCRIPTOR: usize = 46;

/// One driver's bus, and what UEFI keeps for it.
pub struct Context {
    bus: Rc<RefCell<dyn Bus>>,
    /// Host address and handle of every allocation, in order.
    buffers: RefCell<Vec<(*mut c_void, Handle)>>,
    /// The resource lists not yet given back, by BAR index.
    lists: RefCell<Vec<(u8, Vec<u8>)>>,
    console: RefCell<Vec<Line>>,
    waited: Cell<u64>,
    stalled: Cell<u64>,
}

impl Context {
    pub fn new(bus: Rc<RefCell<dyn Bus>>) -> Rc<Context> {
        Rc::new(Context {
            bus,
            buffers: RefCell::default(),
            lists: RefCell::default(),
            console: RefCell::default(),
            waited: Cell::new(0),
            stalled: Cell::new(0),
        })
    }

    /// The console lines of the last call.
    pub fn lines(&self) -> Vec<Line> {
        self.console.borrow().clone()
    }

    /// The µs stalled in the last call.
    pub fn stalled(&self) -> u64 {
        self.stalled.get()
    }

    /// How many allocations were good so far.
    pub fn allocations(&self) -> usize {
        self.buffers.borrow().len()
    }

    /// The handle of the good allocation number `n`, from 0.
    pub fn allocation(&self, n: usize) -> Option<Handle> {
        self.buffers.borrow().get(n).map(|(_, h)| *h)
    }

    /// The first page behind a handle.
    pub fn page(&self, handle: Handle) -> Vec<u8> {
        self.bus.borrow().pages(handle).read(0, world::PAGE)
    }

    /// The handle that a host address was given out with.
    pub fn handle(&self, host: *mut c_void) -> Handle {
        let buffers = self.buffers.borrow();
        buffers.iter().find(|(p, _)| *p == host).expect("a host address that was given out").1
    }
}

impl Firmware for Context {
    fn stall(&self, time: Duration) {
        let us = time.as_micros() as u64;
        self.waited.set(self.waited.get() + us);
        self.stalled.set(self.stalled.get() + us);
        self.bus.borrow_mut().stall(us);
    }

    fn free_pool(&self, memory: NonNull<u8>) -> Status {
        let mut lists = self.lists.borrow_mut();
        let at = lists.iter().position(|(_, l)| ptr::eq(l.as_ptr(), memory.as_ptr()));
        let (index, _) = lists.remove(at.expect("a list that was given out"));
        self.bus.borrow_mut().free_pool(index);
        Status::SUCCESS
    }
}

thread_local! {
    /// The context of the call that is running in this thread.
    static CURRENT: RefCell<Option<Rc<Context>>> = const { RefCell::new(None) };
}

fn current() -> Rc<Context> {
    CURRENT.with_borrow(Clone::clone).expect("a call is running")
}

fn ask<T>(question: impl FnOnce(&mut dyn Bus) -> T) -> T {
    question(&mut *current().bus.borrow_mut())
}

/// Keep a console line with the call that is running, if one is.
pub fn keep_line(kind: Kind, text: String) {
    CURRENT.with_borrow(|c| {
        if let Some(c) = c {
            c.console.borrow_mut().push(Line { kind, text, waited: c.waited.replace(0) });
        }
    });
}

/// Run one call of the driver in its context; a panic gives its text.
pub fn call<T>(context: &Rc<Context>, f: impl FnOnce() -> T) -> Result<T, String> {
    context.console.borrow_mut().clear();
    context.waited.set(0);
    context.stalled.set(0);
    let before = CURRENT.replace(Some(context.clone()));
    let hook = boot::hook(Some(context.clone()));
    let result = caught(f);
    boot::hook(hook);
    CURRENT.set(before);
    result
}

/// Run `f`; a panic gives its text.
pub fn caught<T>(f: impl FnOnce() -> T) -> Result<T, String> {
    catch_unwind(AssertUnwindSafe(f)).map_err(|p| panic_text(p.as_ref()))
}

fn panic_text(payload: &(dyn Any + Send)) -> String {
    let text = payload.downcast_ref::<&str>().map(|s| s.to_string());
    text.or_else(|| payload.downcast_ref::<String>().cloned()).unwrap_or_default()
}

/// The protocol's table. Its functions answer from the context of the call
/// that is running. Arguments that pci.rs cannot pass end the process, since
/// no panic crosses "efiapi".
pub fn pci_io() -> PciIo {
    table(Functions {
        mem_read: mem::<false>,
        mem_write: mem::<true>,
        config_read: config::<false>,
        config_write: config::<true>,
        map,
        unmap,
        allocate_buffer,
        free_buffer,
        get_location,
        attributes,
        get_bar_attributes,
    })
}

fn status(good: bool) -> Status {
    if good {
        Status::SUCCESS
    } else {
        Status::DEVICE_ERROR
    }
}

/// Hand an answer over, or fail.
///
/// # Safety
/// `to` may be written.
unsafe fn hand_over<T>(answer: Option<T>, to: *mut c_void) -> Status {
    let good = answer.is_some();
    if let Some(v) = answer {
        // SAFETY: the caller's; pci.rs passes a variable of the width it names.
        unsafe { to.cast::<T>().write(v) };
    }
    status(good)
}

/// A read of one value to the driver's buffer, or a write of the value there.
///
/// # Safety
/// `buffer` is a variable of the value's type.
unsafe fn access<T, const WRITE: bool>(
    buffer: *mut c_void,
    read: impl FnOnce(&mut dyn Bus) -> Option<T>,
    write: impl FnOnce(&mut dyn Bus, T) -> bool,
) -> Status {
    if WRITE {
        // SAFETY: the caller's.
        let value = unsafe { buffer.cast::<T>().read() };
        status(ask(|b| write(b, value)))
    } else {
        // SAFETY: the caller's.
        unsafe { hand_over(ask(read), buffer) }
    }
}

// SAFETY (all functions below): only pci.rs calls them, with pointers to live
// variables of the type that the width and the UEFI signature say.

/// `Pci.Read`, or `Pci.Write`.
unsafe extern "efiapi" fn config<const WRITE: bool>(
    _: *mut PciIo,
    width: u32,
    offset: u32,
    count: usize,
    buffer: *mut c_void,
) -> Status {
    match (width, count) {
        (WIDTH_UINT16, 1) => unsafe {
            access::<_, WRITE>(buffer, |b| b.config_read16(offset), |b, v| b.config_write16(offset, v))
        },
        (WIDTH_UINT32, 1) => unsafe {
            access::<_, WRITE>(buffer, |b| b.config_read32(offset), |b, v| b.config_write32(offset, v))
        },
        _ => panic!("config access of width {width}, count {count}"),
    }
}

/// `Mem.Read`, or `Mem.Write`. A new command begins a new wait.
unsafe extern "efiapi" fn mem<const WRITE: bool>(
    _: *mut PciIo,
    width: u32,
    bar: u8,
    offset: u64,
    count: usize,
    buffer: *mut c_void,
) -> Status {
    assert_eq!((width, count), (WIDTH_UINT32, 1), "register access");
    if WRITE && (bar, offset) == (BAR_DCS, GO_WRITE) {
        current().waited.set(0);
    }
    unsafe { access::<_, WRITE>(buffer, |b| b.register_read(bar, offset), |b, v| b.register_write(bar, offset, v)) }
}

unsafe extern "efiapi" fn attributes(_: *mut PciIo, operation: u32, value: u64, to: *mut u64) -> Status {
    let call = AttributeCall::from_number(operation).expect("an operation that pci.rs has");
    unsafe { hand_over(ask(|b| b.attributes(call, value)), to.cast()) }
}

unsafe extern "efiapi" fn get_bar_attributes(_: *mut PciIo, index: u8, _: *mut u64, to: *mut *mut c_void) -> Status {
    let list = match ask(|b| b.resource(index)) {
        Resource::Failed => return Status::UNSUPPORTED,
        Resource::Null => ptr::null_mut(),
        Resource::List(bytes) => keep_list(index, bytes),
    };
    unsafe { to.write(list) };
    Status::SUCCESS
}

/// Pool memory with these bytes; a list too short to be read is filled with zeros.
fn keep_list(index: u8, mut bytes: Vec<u8>) -> *mut c_void {
    bytes.resize(bytes.len().max(DESCRIPTOR), 0);
    let list = bytes.as_mut_ptr().cast();
    current().lists.borrow_mut().push((index, bytes));
    list
}

unsafe extern "efiapi" fn allocate_buffer(
    _: *mut PciIo,
    kind: u32,
    memory_type: u32,
    pages: usize,
    to: *mut *mut c_void,
    attributes: u64,
) -> Status {
    assert_eq!((kind, memory_type, attributes), (ALLOCATE_ANY_PAGES, BOOT_SERVICES_DATA, 0), "allocation");
    let host = match ask(|b| b.allocate(pages as u64)) {
        Allocation::Failed => return Status::OUT_OF_RESOURCES,
        Allocation::Null => ptr::null_mut(),
        Allocation::Pages(handle) => keep_buffer(handle),
    };
    unsafe { to.write(host) };
    Status::SUCCESS
}

/// The pages live as long as the bus.
fn keep_buffer(handle: Handle) -> *mut c_void {
    let host = ask(|b| b.hand_out(handle)).cast();
    current().buffers.borrow_mut().push((host, handle));
    host
}

unsafe extern "efiapi" fn free_buffer(_: *mut PciIo, pages: usize, host: *mut c_void) -> Status {
    let handle = current().handle(host);
    status(ask(|b| b.free(handle, pages as u64)))
}

/// The mapping token is the handle's number.
unsafe extern "efiapi" fn map(
    _: *mut PciIo,
    operation: u32,
    host: *mut c_void,
    bytes: *mut usize,
    device: *mut u64,
    token: *mut *mut c_void,
) -> Status {
    assert_eq!(operation, MAP_COMMON_BUFFER, "map");
    let handle = current().handle(host);
    let asked = unsafe { bytes.read() };
    let Some(mapping) = ask(|b| b.map(handle, asked as u64)) else {
        return Status::DEVICE_ERROR;
    };
    unsafe {
        bytes.write(mapping.bytes as usize);
        device.write(mapping.address);
        token.write(ptr::without_provenance_mut(handle.0 as usize));
    }
    Status::SUCCESS
}

unsafe extern "efiapi" fn unmap(_: *mut PciIo, token: *mut c_void) -> Status {
    let handle = Handle(token.addr() as u64);
    status(ask(|b| b.unmap(handle)))
}

/// The bring-up never asks for it.
unsafe extern "efiapi" fn get_location(
    _: *mut PciIo,
    _: *mut usize,
    _: *mut usize,
    _: *mut usize,
    _: *mut usize,
) -> Status {
    Status::UNSUPPORTED
}
