//! The library, called as the plain functions are.

#[path = "../../second/src/exported.rs"]
#[allow(dead_code)]
mod exported;
#[path = "../../second/src/exported_readers.rs"]
#[allow(dead_code)]
mod exported_readers;

use bench::plain::{Found, Refusal, Totals};
use exported::{moortangle_write, moortangle_written};
use exported_readers::{moortangle_check, moortangle_look_up, moortangle_read, moortangle_search};

pub fn write(buffer: &mut [u8], start: u64, [code, parameter, kind]: [u32; 3], values: &[u32]) -> Result<u64, Refusal> {
    // SAFETY: both pointers are valid for the lengths beside them, and a buffer lent as &mut overlaps nothing.
    let moortangle_written { answer, told } = unsafe {
        moortangle_write(buffer.as_mut_ptr(), buffer.len(), start, code, parameter, kind, values.as_ptr(), values.len())
    };
    answered(answer, told, told)
}

pub fn read(buffer: &[u8], start: u64, stop: u64, kind: u32, list: &mut [u32]) -> Result<Found, Refusal> {
    // SAFETY: both pointers are valid for the lengths beside them, and a list lent as &mut overlaps nothing.
    let record =
        unsafe { moortangle_read(buffer.as_ptr(), buffer.len(), start, stop, kind, list.as_mut_ptr(), list.len()) };
    let next = record.told;
    let found = if record.end == 1 {
        Found::End { next }
    } else {
        Found::Record { heading: [record.code, record.parameter, record.kind], count: record.count, next }
    };
    answered(record.answer, record.told, found)
}

pub fn look_up(buffer: &[u8], start: u64, stop: u64, kind: u32, place: u64) -> Result<u32, Refusal> {
    // SAFETY: the pointer is valid for the length beside it.
    let found = unsafe { moortangle_look_up(buffer.as_ptr(), buffer.len(), start, stop, kind, place) };
    answered(found.answer, found.told, found.value)
}

pub fn search(buffer: &[u8], start: u64, stop: u64, instant: u32) -> Result<u64, Refusal> {
    // SAFETY: the pointer is valid for the length beside it.
    let found = unsafe { moortangle_search(buffer.as_ptr(), buffer.len(), start, stop, instant) };
    answered(found.answer, found.told, found.below)
}

pub fn check(buffer: &[u8]) -> Result<Totals, Refusal> {
    // SAFETY: the pointer is valid for the length beside it.
    let stream = unsafe { moortangle_check(buffer.as_ptr(), buffer.len()) };
    answered(stream.answer, stream.told, Totals { records: stream.records, values: stream.values })
}

fn answered<T>(answer: u32, told: u64, done: T) -> Result<T, Refusal> {
    if answer == 0 {
        Ok(done)
    } else {
        Err(Refusal { answer, told })
    }
}
