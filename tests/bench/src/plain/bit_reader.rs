//! Bits on their way out of a buffer, up to a stop.

use super::Refusal;

const CUT_SHORT: u32 = 6;

/// So many bits of a window are the buffer's, wherever in its byte the window begins.
const SURE: u64 = 57;

pub struct BitReader<'a> {
    /// The buffer up to the stop's byte.
    bytes: &'a [u8],
    at: u64,
    stop: u64,
}

impl BitReader<'_> {
    /// Starts at a bit not after the stop, and the stop is inside the buffer.
    pub fn new(buffer: &[u8], start: u64, stop: u64) -> BitReader<'_> {
        BitReader { bytes: &buffer[..stop.div_ceil(8) as usize], at: start, stop }
    }

    pub fn at(&self) -> u64 {
        self.at
    }

    pub fn left(&self) -> u64 {
        self.stop - self.at
    }

    /// The next bits, the first one highest. Bits from the stop on may show in it, so a caller asks `shows` first.
    pub fn window(&self) -> u64 {
        let rest = &self.bytes[(self.at / 8) as usize..];
        let loaded = match rest.first_chunk() {
            Some(&eight) => u64::from_be_bytes(eight),
            None => last_bytes(self.bytes, rest.len()),
        };
        loaded << (self.at % 8)
    }

    /// Whether the first so many bits of the window are the buffer's and before the stop.
    pub fn shows(&self, width: u32) -> bool {
        u64::from(width) <= self.left().min(SURE)
    }

    /// Moves on by bits that the window shows.
    pub fn pass(&mut self, width: u32) {
        self.at += u64::from(width);
    }

    /// A field of any form, which is refused at the bit where it starts.
    pub fn field<T>(&mut self, read: impl FnOnce(&mut Self) -> Result<T, u32>) -> Result<T, Refusal> {
        let told = self.at;
        read(self).map_err(|answer| Refusal { answer, told })
    }

    /// The number in the next bits, at most 32.
    pub fn number(&mut self, width: u32) -> Result<u32, u32> {
        if !self.shows(width) {
            return Err(CUT_SHORT);
        }
        // In two steps, since a number of no bits shifts all 64 out.
        let number = self.window() >> 1 >> (63 - width);
        self.pass(width);
        Ok(number as u32)
    }

    /// Passes the zeros before the next one or the stop, and tells how many they were.
    pub fn zeros(&mut self) -> u64 {
        let start = self.at;
        while self.at < self.stop {
            let zeros = u64::from(self.window().leading_zeros()).min(SURE);
            self.at = self.stop.min(self.at + zeros);
            if zeros < SURE {
                break;
            }
        }
        self.at - start
    }
}

/// So many last bytes, fewer than eight, as the highest of a window, with zeros below them.
#[cold]
fn last_bytes(bytes: &[u8], count: usize) -> u64 {
    // One load where there are eight: most words of a short record are read here.
    let number = match bytes.last_chunk() {
        Some(&eight) => u64::from_be_bytes(eight),
        None => bytes.iter().fold(0, |number, &byte| number << 8 | u64::from(byte)),
    };
    // In two steps, since without a byte all 64 bits are shifted out.
    number << (8 * (7 - count)) << 8
}
