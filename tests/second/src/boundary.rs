//! The library's writers, called on memory with guards around it.

use crate::exported::{moortangle_write_end, moortangle_written, Writer};
use crate::guarded::Guarded;

pub fn write<T: Copy + PartialEq>(
    writer: Writer<T>,
    buffer: &mut Guarded<u8>,
    start: u64,
    [code, parameter, kind]: [u32; 3],
    values: &mut Guarded<T>,
) -> moortangle_written {
    // SAFETY: both pointers are valid for the lengths beside them, and the two allocations do not overlap.
    unsafe { writer(buffer.pointer(), buffer.count(), start, code, parameter, kind, values.pointer(), values.count()) }
}

pub fn write_end(buffer: &mut Guarded<u8>, start: u64) -> moortangle_written {
    // SAFETY: the pointer is valid for the length beside it.
    unsafe { moortangle_write_end(buffer.pointer(), buffer.count(), start) }
}
