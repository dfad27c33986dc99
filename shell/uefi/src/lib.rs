//! Stand-in for the `uefi` crate: exactly the names that fw.rs, hcr.rs,
//! dma.rs, bars.rs and pci.rs use, those that `shell/loader` uses, and the
//! hook behind `boot`.

pub mod boot;

/// Protocol support.
pub mod proto {
    pub use uefi_macros::unsafe_protocol;
}

use core::fmt;

/// `EFI_STATUS`.
#[derive(Clone, Copy, PartialEq, Eq)]
#[repr(transparent)]
pub struct Status(pub usize);

/// The bit that every error code has and no warning.
const ERROR: usize = 1 << (usize::BITS - 1);

impl Status {
    pub const SUCCESS: Status = Status(0);
    pub const INVALID_PARAMETER: Status = Status(ERROR | 2);
    pub const UNSUPPORTED: Status = Status(ERROR | 3);
    pub const DEVICE_ERROR: Status = Status(ERROR | 7);
    pub const OUT_OF_RESOURCES: Status = Status(ERROR | 9);
    pub const NOT_FOUND: Status = Status(ERROR | 14);

    /// Only SUCCESS is good; a warning is not.
    pub fn is_success(self) -> bool {
        self == Status::SUCCESS
    }
}

impl fmt::Debug for Status {
    fn fmt(&self, f: &mut fmt::Formatter<'_>) -> fmt::Result {
        match *self {
            Status::SUCCESS => f.write_str("SUCCESS"),
            Status::INVALID_PARAMETER => f.write_str("INVALID_PARAMETER"),
            Status::UNSUPPORTED => f.write_str("UNSUPPORTED"),
            Status::DEVICE_ERROR => f.write_str("DEVICE_ERROR"),
            Status::OUT_OF_RESOURCES => f.write_str("OUT_OF_RESOURCES"),
            Status::NOT_FOUND => f.write_str("NOT_FOUND"),
            Status(n) => write!(f, "Status({n:#x})"),
        }
    }
}

/// A status other than SUCCESS.
#[derive(Clone, Copy, PartialEq, Eq, Debug)]
pub struct Error(Status);

impl Error {
    pub fn status(&self) -> Status {
        self.0
    }
}

impl From<Status> for Error {
    fn from(status: Status) -> Error {
        Error(status)
    }
}

pub type Result<T = ()> = core::result::Result<T, Error>;

/// From a status to a `Result`.
pub trait StatusExt {
    fn to_result(self) -> Result;
    fn to_result_with_val<T>(self, val: impl FnOnce() -> T) -> Result<T>;
}

impl StatusExt for Status {
    fn to_result(self) -> Result {
        self.to_result_with_val(|| ())
    }

    fn to_result_with_val<T>(self, val: impl FnOnce() -> T) -> Result<T> {
        if self.is_success() {
            Ok(val())
        } else {
            Err(self.into())
        }
    }
}
