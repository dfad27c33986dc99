//! `EFI_PCI_IO_PROTOCOL`: the whole member table, in the order of the UEFI specification ("PCI Bus Support"), with its names
//! as Rust writes them. The names of enumerations and of their values are the specification's.

use core::ffi::c_void;

use uefi::proto::unsafe_protocol;
use uefi::Status;

/// `EFI_PCI_IO_PROTOCOL_WIDTH`.
#[repr(u32)]
#[derive(Clone, Copy, PartialEq, Eq, Debug)]
pub enum EfiPciIoProtocolWidth {
    EfiPciIoWidthUint8,
    EfiPciIoWidthUint16,
    EfiPciIoWidthUint32,
    EfiPciIoWidthUint64,
    EfiPciIoWidthFifoUint8,
    EfiPciIoWidthFifoUint16,
    EfiPciIoWidthFifoUint32,
    EfiPciIoWidthFifoUint64,
    EfiPciIoWidthFillUint8,
    EfiPciIoWidthFillUint16,
    EfiPciIoWidthFillUint32,
    EfiPciIoWidthFillUint64,
    EfiPciIoWidthMaximum,
}

/// `EFI_PCI_IO_PROTOCOL_OPERATION`.
#[repr(u32)]
#[derive(Clone, Copy, PartialEq, Eq, Debug)]
pub enum EfiPciIoProtocolOperation {
    EfiPciIoOperationBusMasterRead,
    EfiPciIoOperationBusMasterWrite,
    EfiPciIoOperationBusMasterCommonBuffer,
    EfiPciIoOperationMaximum,
}

/// `EFI_PCI_IO_PROTOCOL_ATTRIBUTE_OPERATION`.
#[repr(u32)]
#[derive(Clone, Copy, PartialEq, Eq, Debug)]
pub enum EfiPciIoProtocolAttributeOperation {
    EfiPciIoAttributeOperationGet,
    EfiPciIoAttributeOperationSet,
    EfiPciIoAttributeOperationEnable,
    EfiPciIoAttributeOperationDisable,
    EfiPciIoAttributeOperationSupported,
    EfiPciIoAttributeOperationMaximum,
}

/// `EFI_ALLOCATE_TYPE`.
#[repr(u32)]
#[derive(Clone, Copy, PartialEq, Eq, Debug)]
pub enum EfiAllocateType {
    AllocateAnyPages,
    AllocateMaxAddress,
    AllocateAddress,
    MaxAllocateType,
}

/// `EFI_MEMORY_TYPE`, as far as the boot services' data.
#[repr(u32)]
#[derive(Clone, Copy, PartialEq, Eq, Debug)]
pub enum EfiMemoryType {
    EfiReservedMemoryType,
    EfiLoaderCode,
    EfiLoaderData,
    EfiBootServicesCode,
    EfiBootServicesData,
}

/// `EFI_PCI_IO_PROTOCOL_POLL_IO_MEM`.
pub type PollIoMem = unsafe extern "efiapi" fn(
    this: *mut PciIoProtocol,
    width: EfiPciIoProtocolWidth,
    bar_index: u8,
    offset: u64,
    mask: u64,
    value: u64,
    delay: u64,
    result: *mut u64,
) -> Status;

/// `EFI_PCI_IO_PROTOCOL_IO_MEM`.
pub type IoMem = unsafe extern "efiapi" fn(
    this: *mut PciIoProtocol,
    width: EfiPciIoProtocolWidth,
    bar_index: u8,
    offset: u64,
    count: usize,
    buffer: *mut c_void,
) -> Status;

/// `EFI_PCI_IO_PROTOCOL_CONFIG`.
pub type Config = unsafe extern "efiapi" fn(
    this: *mut PciIoProtocol,
    width: EfiPciIoProtocolWidth,
    offset: u32,
    count: usize,
    buffer: *mut c_void,
) -> Status;

/// `EFI_PCI_IO_PROTOCOL_COPY_MEM`.
pub type CopyMem = unsafe extern "efiapi" fn(
    this: *mut PciIoProtocol,
    width: EfiPciIoProtocolWidth,
    dest_bar_index: u8,
    dest_offset: u64,
    src_bar_index: u8,
    src_offset: u64,
    count: usize,
) -> Status;

/// `EFI_PCI_IO_PROTOCOL_MAP`.
pub type Map = unsafe extern "efiapi" fn(
    this: *mut PciIoProtocol,
    operation: EfiPciIoProtocolOperation,
    host_address: *mut c_void,
    number_of_bytes: *mut usize,
    device_address: *mut u64,
    mapping: *mut *mut c_void,
) -> Status;

/// `EFI_PCI_IO_PROTOCOL_UNMAP`.
pub type Unmap = unsafe extern "efiapi" fn(this: *mut PciIoProtocol, mapping: *mut c_void) -> Status;

/// `EFI_PCI_IO_PROTOCOL_ALLOCATE_BUFFER`.
pub type AllocateBuffer = unsafe extern "efiapi" fn(
    this: *mut PciIoProtocol,
    allocate_type: EfiAllocateType,
    memory_type: EfiMemoryType,
    pages: usize,
    host_address: *mut *mut c_void,
    attributes: u64,
) -> Status;

/// `EFI_PCI_IO_PROTOCOL_FREE_BUFFER`.
pub type FreeBuffer =
    unsafe extern "efiapi" fn(this: *mut PciIoProtocol, pages: usize, host_address: *mut c_void) -> Status;

/// `EFI_PCI_IO_PROTOCOL_FLUSH`.
pub type Flush = unsafe extern "efiapi" fn(this: *mut PciIoProtocol) -> Status;

/// `EFI_PCI_IO_PROTOCOL_GET_LOCATION`.
pub type GetLocation = unsafe extern "efiapi" fn(
    this: *mut PciIoProtocol,
    segment_number: *mut usize,
    bus_number: *mut usize,
    device_number: *mut usize,
    function_number: *mut usize,
) -> Status;

/// `EFI_PCI_IO_PROTOCOL_ATTRIBUTES`.
pub type Attributes = unsafe extern "efiapi" fn(
    this: *mut PciIoProtocol,
    operation: EfiPciIoProtocolAttributeOperation,
    attributes: u64,
    result: *mut u64,
) -> Status;

/// `EFI_PCI_IO_PROTOCOL_GET_BAR_ATTRIBUTES`.
pub type GetBarAttributes = unsafe extern "efiapi" fn(
    this: *mut PciIoProtocol,
    bar_index: u8,
    supports: *mut u64,
    resources: *mut *mut c_void,
) -> Status;

/// `EFI_PCI_IO_PROTOCOL_SET_BAR_ATTRIBUTES`.
pub type SetBarAttributes = unsafe extern "efiapi" fn(
    this: *mut PciIoProtocol,
    attributes: u64,
    bar_index: u8,
    offset: *mut u64,
    length: *mut u64,
) -> Status;

/// `EFI_PCI_IO_PROTOCOL_ACCESS` and `EFI_PCI_IO_PROTOCOL_CONFIG_ACCESS`.
#[repr(C)]
#[derive(Clone, Copy)]
pub struct Access<T> {
    pub read: T,
    pub write: T,
}

/// `EFI_PCI_IO_PROTOCOL`.
#[repr(C)]
#[unsafe_protocol("4cf5b200-68b8-4ca5-9eec-b23e3f50029a")]
pub struct PciIoProtocol {
    pub poll_mem: PollIoMem,
    pub poll_io: PollIoMem,
    pub mem: Access<IoMem>,
    pub io: Access<IoMem>,
    pub pci: Access<Config>,
    pub copy_mem: CopyMem,
    pub map: Map,
    pub unmap: Unmap,
    pub allocate_buffer: AllocateBuffer,
    pub free_buffer: FreeBuffer,
    pub flush: Flush,
    pub get_location: GetLocation,
    pub attributes: Attributes,
    pub get_bar_attributes: GetBarAttributes,
    pub set_bar_attributes: SetBarAttributes,
    pub rom_size: u64,
    pub rom_image: *mut c_void,
}
