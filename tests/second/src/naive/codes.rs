//! The codes of one word.

use super::bits::{binary, in_width, Bits};

pub const LARGEST_WORD: u64 = 4_294_967_295;

/// The length of B of the largest word.
pub const LONGEST_BINARY: usize = 32;

/// The codes whose bodies are words in order.
#[derive(Clone, Copy, Debug, PartialEq, Eq)]
pub enum WordCode {
    Gamma,
    Delta,
    Rice(u32),
    VariableByte,
}

impl WordCode {
    /// The bits of this word.
    pub fn image(self, word: u64) -> Bits {
        match self {
            WordCode::Gamma => gamma(word),
            WordCode::Delta => delta(word),
            WordCode::Rice(k) => rice(k, word),
            WordCode::VariableByte => variable_byte(word),
        }
    }
}

/// One zero fewer than B(w) is long, then B(w).
pub fn gamma(word: u64) -> Bits {
    let digits = binary(word);
    let mut bits = vec![false; digits.len() - 1];
    bits.extend(digits);
    bits
}

/// Gamma of the length of B(w), then the whole of B(w).
pub fn delta(word: u64) -> Bits {
    let digits = binary(word);
    let mut bits = gamma(digits.len() as u64);
    bits.extend(digits);
    bits
}

/// q zeros, a one, and the remainder in k bits.
pub fn rice(k: u32, word: u64) -> Bits {
    let q = rice_zeros(k, word);
    let mut bits = vec![false; q as usize];
    bits.push(true);
    bits.extend(in_width(word - 1 - q * 2u64.pow(k), k));
    bits
}

/// The length of a Rice word, counted without building it because it may have four billion bits.
pub fn rice_length(k: u32, word: u64) -> u64 {
    rice_zeros(k, word) + 1 + u64::from(k)
}

fn rice_zeros(k: u32, word: u64) -> u64 {
    (word - 1) / 2u64.pow(k)
}

/// Groups of 7 bits, highest first, each after a bit that says whether another follows.
pub fn variable_byte(word: u64) -> Bits {
    let mut lowest_first = vec![word % 128];
    let mut rest = word / 128;
    while rest > 0 {
        lowest_first.push(rest % 128);
        rest /= 128;
    }
    let mut bits = Bits::new();
    for (still_to_come, &group) in lowest_first.iter().enumerate().rev() {
        bits.push(still_to_come > 0);
        bits.extend(in_width(group, 7));
    }
    bits
}
