//! Bits on their way into a buffer.

/// Gathers bits in an accumulator and puts four bytes into the buffer at a time.
pub struct BitWriter<'a> {
    buffer: &'a mut [u8],
    /// The byte that the first gathered bit belongs to.
    at: usize,
    /// The gathered bits are the lowest ones here; those above them are already in the buffer.
    gathered: u64,
    /// How many bits are gathered, fewer than 32 between calls.
    count: u32,
}

impl BitWriter<'_> {
    /// Starts at a bit inside the buffer, and gathers the bits before it in its byte so that they are kept.
    pub fn new(buffer: &mut [u8], start: u64) -> BitWriter<'_> {
        let at = (start / 8) as usize;
        let count = (start % 8) as u32;
        let gathered = u64::from(buffer[at]) >> (8 - count);
        BitWriter { buffer, at, gathered, count }
    }

    /// Writes a number below 2^width in that many bits, at most 32.
    pub fn number(&mut self, number: u32, width: u32) {
        self.gathered = self.gathered << width | u64::from(number);
        self.count += width;
        if self.count >= 32 {
            self.count -= 32;
            let full = (self.gathered >> self.count) as u32;
            self.buffer[self.at..self.at + 4].copy_from_slice(&full.to_be_bytes());
            self.at += 4;
        }
    }

    pub fn zeros(&mut self, mut count: u32) {
        while count > 32 {
            self.number(0, 32);
            count -= 32;
        }
        self.number(0, count);
    }

    /// Puts the last bits into the buffer and keeps those after them in their byte.
    pub fn finish(mut self) {
        while self.count >= 8 {
            self.count -= 8;
            self.buffer[self.at] = (self.gathered >> self.count) as u8;
            self.at += 1;
        }
        if self.count > 0 {
            let after = self.buffer[self.at] & (0xFF >> self.count);
            self.buffer[self.at] = (self.gathered << (8 - self.count)) as u8 | after;
        }
    }
}
