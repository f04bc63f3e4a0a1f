//! The writers under the names by which the static library exports them.

#[repr(C)]
#[allow(non_camel_case_types)]
pub struct moortangle_written {
    pub answer: u32,
    pub told: u64,
}

/// A record's writer: buffer and its bytes, start, code, parameter, kind, values and their number.
pub type Writer<T> = unsafe extern "C" fn(*mut u8, usize, u64, u32, u32, u32, *const T, usize) -> moortangle_written;

#[link(name = "moortangle", kind = "static")]
extern "C" {
    pub fn moortangle_write(
        buffer: *mut u8,
        bytes: usize,
        start: u64,
        code: u32,
        parameter: u32,
        kind: u32,
        values: *const u32,
        count: usize,
    ) -> moortangle_written;

    pub fn moortangle_write_corrections(
        buffer: *mut u8,
        bytes: usize,
        start: u64,
        code: u32,
        parameter: u32,
        kind: u32,
        values: *const i32,
        count: usize,
    ) -> moortangle_written;

    pub fn moortangle_write_end(buffer: *mut u8, bytes: usize, start: u64) -> moortangle_written;
}
