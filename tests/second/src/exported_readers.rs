//! The readers under the names by which the static library exports them.

#[repr(C)]
#[allow(non_camel_case_types)]
pub struct moortangle_record {
    pub answer: u32,
    pub told: u64,
    pub end: u32,
    pub code: u32,
    pub kind: u32,
    pub parameter: u32,
    pub count: u32,
}

#[repr(C)]
#[allow(non_camel_case_types)]
pub struct moortangle_value {
    pub answer: u32,
    pub told: u64,
    pub value: u32,
}

#[repr(C)]
#[allow(non_camel_case_types)]
pub struct moortangle_correction {
    pub answer: u32,
    pub told: u64,
    pub value: i32,
}

#[repr(C)]
#[allow(non_camel_case_types)]
pub struct moortangle_place {
    pub answer: u32,
    pub told: u64,
    pub below: u64,
}

#[repr(C)]
#[allow(non_camel_case_types)]
pub struct moortangle_stream {
    pub answer: u32,
    pub told: u64,
    pub records: u64,
    pub values: u64,
}

/// A record's reader: buffer and its bytes, start, stop, kind, list and its room.
pub type Reader<T> = unsafe extern "C" fn(*const u8, usize, u64, u64, u32, *mut T, usize) -> moortangle_record;

#[link(name = "moortangle", kind = "static")]
extern "C" {
    pub fn moortangle_read(
        buffer: *const u8,
        bytes: usize,
        start: u64,
        stop: u64,
        kind: u32,
        list: *mut u32,
        room: usize,
    ) -> moortangle_record;

    pub fn moortangle_read_corrections(
        buffer: *const u8,
        bytes: usize,
        start: u64,
        stop: u64,
        kind: u32,
        list: *mut i32,
        room: usize,
    ) -> moortangle_record;

    pub fn moortangle_look_up(
        buffer: *const u8,
        bytes: usize,
        start: u64,
        stop: u64,
        kind: u32,
        place: u64,
    ) -> moortangle_value;

    pub fn moortangle_look_up_correction(
        buffer: *const u8,
        bytes: usize,
        start: u64,
        stop: u64,
        kind: u32,
        place: u64,
    ) -> moortangle_correction;

    pub fn moortangle_search(buffer: *const u8, bytes: usize, start: u64, stop: u64, instant: u32) -> moortangle_place;

    pub fn moortangle_check(buffer: *const u8, bytes: usize) -> moortangle_stream;
}
