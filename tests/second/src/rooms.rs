//! Buffers and starts around a record's length: roomy, exactly full, too short, at the end and beyond it.

use second::naive::record;
use second::naive::writer::Request;
use second::random::Random;

pub use second::naive::MOST_BYTES;

/// Stands in for the length where a request is refused whatever the room.
const ANY_LENGTH: u64 = 43;

/// The record's length as far as there is one.
pub fn length(request: &Request) -> u64 {
    match request.judged() {
        Ok(heading) => record::length(heading, &request.values),
        Err(_) => ANY_LENGTH,
    }
}

/// Pairs of a buffer's bytes and a start for a record of this many bits.
pub fn rooms(length: u64, start: u64) -> Vec<(usize, u64)> {
    let bytes = (start + length).div_ceil(8);
    if bytes > MOST_BYTES as u64 {
        return vec![(MOST_BYTES, start)];
    }
    let bits = 8 * bytes;
    let tight = bytes as usize;
    vec![
        (tight, start),
        (tight + 3, start),
        (tight, bits - length),
        (tight, bits - length + 1),
        (tight - 1, start),
        (tight, bits),
        (tight, bits + 1),
    ]
}

/// Old bytes of a buffer: zeros, ones or a mixture.
pub fn background(look: u64, bytes: usize, random: &mut Random) -> Vec<u8> {
    match look % 3 {
        0 => vec![0x00; bytes],
        1 => vec![0xFF; bytes],
        _ => (0..bytes).map(|_| random.number() as u8).collect(),
    }
}
