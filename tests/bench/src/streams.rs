//! Streams of one record, to read.

use crate::plain::{write, MOST_BYTES};

/// A record that fits a buffer, and the end mark and padding, which are the zeros that the buffer holds already.
pub fn of_record(heading: [u32; 3], values: &[u32]) -> Vec<u8> {
    let mut buffer = vec![0; MOST_BYTES];
    let next = write(&mut buffer, 0, heading, values).expect("a list without faults, short enough");
    buffer.truncate((next as usize + 4).div_ceil(8));
    buffer
}
