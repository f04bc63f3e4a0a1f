//! Bits somewhere in a buffer, among bits that are none of theirs.

use crate::rooms::background;
use second::naive::bits::place;
use second::naive::reading::readers::Span;
use second::random::Random;

pub struct Placed {
    pub bytes: Vec<u8>,
    pub start: u64,
    pub end: u64,
}

impl Placed {
    pub fn among_others(random: &mut Random, bits: &[bool]) -> Placed {
        let start = random.between(0, 20) as usize;
        let end = start + bits.len();
        let bytes = end.div_ceil(8) + random.between(0, 3) as usize;
        let look = random.number();
        Placed::at(start, bits, background(look, bytes, random))
    }

    pub fn at(start: usize, bits: &[bool], mut bytes: Vec<u8>) -> Placed {
        place(&mut bytes, start, bits);
        Placed { bytes, start: start as u64, end: (start + bits.len()) as u64 }
    }

    pub fn up_to(&self, stop: u64) -> Span<'_> {
        Span { bytes: &self.bytes, start: self.start, stop }
    }

    /// Up to a stop behind the bits, perhaps right behind them.
    pub fn whole(&self, random: &mut Random) -> Span<'_> {
        let last = 8 * self.bytes.len() as u64;
        let drawn = random.between(self.end, last);
        self.up_to(random.one_of(&[self.end, drawn, last]))
    }
}

/// These bits, the end mark and its padding, as a whole buffer.
pub fn ended(bits: &[bool]) -> Vec<u8> {
    let mut bytes = vec![0; (bits.len() + 4).div_ceil(8)];
    place(&mut bytes, 0, bits);
    bytes
}
