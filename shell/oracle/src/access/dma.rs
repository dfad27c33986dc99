/// Stands after the unchanged text: a buffer's host address, and buffers
/// without memory or over that of the caller.
pub mod oracle_access {
    use super::*;

    pub fn host(mem: &Mem) -> *mut u8 {
        mem.host.as_ptr()
    }

    /// A view of bytes that the caller keeps.
    pub fn over(bytes: &mut [u8]) -> Mem {
        Mem { host: NonNull::new(bytes.as_mut_ptr()).expect("a slice"), len: bytes.len(), dev: 0 }
    }

    /// For `map_pages`, which looks at address and length and at no byte.
    pub fn without_memory(dev: u64, pages: usize) -> DmaBuf {
        DmaBuf { mem: Mem { host: NonNull::dangling(), len: pages * PAGE, dev }, pages, mapping: core::ptr::null_mut() }
    }

    /// A buffer over bytes that the caller keeps, at a device address and with no mapping.
    pub fn buffer_over(bytes: &mut [u8], dev: u64) -> DmaBuf {
        DmaBuf { mem: Mem { dev, ..over(bytes) }, pages: bytes.len().div_ceil(PAGE), mapping: core::ptr::null_mut() }
    }
}
