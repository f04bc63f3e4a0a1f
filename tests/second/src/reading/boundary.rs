//! The library's readers, called on memory with guards around it.

use super::answer::Answer;
use super::call::Call;
use crate::exported_readers::{
    moortangle_check, moortangle_look_up, moortangle_look_up_correction, moortangle_read, moortangle_read_corrections,
    moortangle_search, Reader,
};
use crate::guarded::{Guarded, Lending};
use second::naive::heading::Entry;

/// What the library said, and what it did to a lent list.
pub struct Got {
    pub answer: Answer,
    /// Places that do not hold what they must, with what they hold.
    pub list_faults: Vec<(usize, i64)>,
    pub beside_list: Vec<isize>,
}

/// Calls on this buffer between these bits; `values` are what must stand at the front of the lent list afterwards.
pub fn call(call: Call, buffer: &mut Guarded<u8>, bits: (u64, u64), lending: Lending, values: &[i64]) -> Got {
    let (pointer, bytes, (start, stop)) = (buffer.pointer().cast_const(), buffer.count(), bits);
    let answer = match call {
        Call::Read { entry: Entry::Unsigned, kind, room } => {
            let list = List { reader: moortangle_read, of_bits: |bits| bits, room, values };
            return list.read(buffer, bits, kind, lending);
        }
        Call::Read { entry: Entry::Corrections, kind, room } => {
            let list = List { reader: moortangle_read_corrections, of_bits: |bits| bits as i32, room, values };
            return list.read(buffer, bits, kind, lending);
        }
        // SAFETY: in each of these calls the pointer is valid for the length beside it.
        Call::LookUp { entry: Entry::Unsigned, kind, place } => unsafe {
            moortangle_look_up(pointer, bytes, start, stop, kind, place).into()
        },
        Call::LookUp { entry: Entry::Corrections, kind, place } => unsafe {
            moortangle_look_up_correction(pointer, bytes, start, stop, kind, place).into()
        },
        Call::Search { instant } => unsafe { moortangle_search(pointer, bytes, start, stop, instant).into() },
        Call::Check => unsafe { moortangle_check(pointer, bytes).into() },
    };
    Got { answer, list_faults: vec![], beside_list: vec![] }
}

/// A list to lend to a reader, whose elements are made from 32 bits each.
struct List<'a, T> {
    reader: Reader<T>,
    of_bits: fn(u32) -> T,
    room: usize,
    values: &'a [i64],
}

impl<T: Copy + PartialEq + Into<i64>> List<'_, T> {
    fn read(&self, buffer: &mut Guarded<u8>, (start, stop): (u64, u64), kind: u32, lending: Lending) -> Got {
        let before: Vec<T> = (0..self.room).map(|place| (self.of_bits)(lending.unfilled(place))).collect();
        let guard = (self.of_bits)(u32::from_ne_bytes([lending.guard; 4]));
        let mut list = Guarded::new(&before, guard, lending);
        // SAFETY: both pointers are valid for the lengths beside them, and the two allocations do not overlap.
        let record =
            unsafe { (self.reader)(buffer.pointer(), buffer.count(), start, stop, kind, list.pointer(), list.count()) };
        Got { answer: record.into(), list_faults: self.faults(&before, list.lent()), beside_list: list.disturbed() }
    }

    /// The places that hold neither the value they must nor, behind the values, what they held before.
    fn faults(&self, before: &[T], after: &[T]) -> Vec<(usize, i64)> {
        let values = self.values.iter().map(|&value| (self.of_bits)(value as u32));
        let filled = values.chain(before.iter().copied().skip(self.values.len()));
        let compared = after.iter().zip(filled).enumerate();
        compared
            .filter(|(_, (after, filled))| *after != filled)
            .map(|(place, (&after, _))| (place, after.into()))
            .collect()
    }
}
