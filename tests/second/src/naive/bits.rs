//! Single bits, and how they stand in bytes.

/// Bits in the order in which they stand in a buffer.
pub type Bits = Vec<bool>;

/// The bits of a text of 0 and 1, in which spaces may stand between the fields.
pub fn of_text(text: &str) -> Bits {
    text.chars().filter(|&sign| sign != ' ').map(|sign| sign == '1').collect()
}

/// A number in exactly `width` bits, highest first.
pub fn in_width(number: u64, width: u32) -> Bits {
    (0..width).rev().map(|weight| (number >> weight) % 2 == 1).collect()
}

/// B(w): the word in binary without leading zeros.
pub fn binary(word: u64) -> Bits {
    let mut lowest_first = Bits::new();
    let mut rest = word;
    while rest > 0 {
        lowest_first.push(rest % 2 == 1);
        rest /= 2;
    }
    lowest_first.into_iter().rev().collect()
}

/// The number whose highest bit comes first.
pub fn number(bits: &[bool]) -> u64 {
    bits.iter().fold(0, |number, &bit| 2 * number + u64::from(bit))
}

/// The first `count` bits of the bytes.
pub fn taken(bytes: &[u8], count: usize) -> Bits {
    (0..count).map(|at| bytes[at / 8] & (128 >> (at % 8)) != 0).collect()
}

/// Puts the bits into the bytes from bit `start` on, bit 0 being the highest bit of byte 0.
pub fn place(bytes: &mut [u8], start: usize, bits: &[bool]) {
    for (offset, &bit) in bits.iter().enumerate() {
        let at = start + offset;
        let mask = 128 >> (at % 8);
        if bit {
            bytes[at / 8] |= mask;
        } else {
            bytes[at / 8] &= !mask;
        }
    }
}
