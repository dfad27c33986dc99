//! The boot services that the sources and `shell/loader` call. They go to the
//! hook of the running thread, so that they stand in the same trace as the
//! bus calls.

use core::ptr::NonNull;
use core::time::Duration;
use std::cell::RefCell;
use std::rc::Rc;

use crate::{Result, Status, StatusExt};

/// What answers the boot services.
pub trait Firmware {
    fn stall(&self, time: Duration);
    fn free_pool(&self, memory: NonNull<u8>) -> Status;

    /// `RaiseTPL`: gives the level from before.
    fn raise_tpl(&self, _tpl: Tpl) -> Tpl {
        Tpl::APPLICATION
    }

    /// `RestoreTPL`.
    fn restore_tpl(&self, _old: Tpl) {}
}

/// `EFI_TPL`, a task priority level.
#[derive(Clone, Copy, PartialEq, Eq, PartialOrd, Ord, Debug)]
#[repr(transparent)]
pub struct Tpl(pub usize);

impl Tpl {
    pub const APPLICATION: Tpl = Tpl(4);
    pub const HIGH_LEVEL: Tpl = Tpl(31);
}

/// Puts the level from before back when it is dropped.
#[derive(Debug)]
pub struct TplGuard {
    old: Tpl,
}

impl Drop for TplGuard {
    fn drop(&mut self) {
        hooked().restore_tpl(self.old);
    }
}

/// # Safety
/// As in UEFI: nothing is called meanwhile that needs a lower level.
#[must_use]
pub unsafe fn raise_tpl(tpl: Tpl) -> TplGuard {
    TplGuard { old: hooked().raise_tpl(tpl) }
}

thread_local! {
    static HOOK: RefCell<Option<Rc<dyn Firmware>>> = const { RefCell::new(None) };
}

/// Put `firmware` behind the boot services of this thread; gives what stood there.
pub fn hook(firmware: Option<Rc<dyn Firmware>>) -> Option<Rc<dyn Firmware>> {
    HOOK.replace(firmware)
}

fn hooked() -> Rc<dyn Firmware> {
    HOOK.with_borrow(Clone::clone).expect("no firmware behind the boot services")
}

pub fn stall(time: Duration) {
    hooked().stall(time);
}

/// # Safety
/// As in UEFI: `memory` came from pool and is not used afterwards.
pub unsafe fn free_pool(memory: NonNull<u8>) -> Result {
    hooked().free_pool(memory).to_result()
}
