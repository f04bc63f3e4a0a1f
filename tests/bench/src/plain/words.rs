//! The words of codes 1 to 4. Each has a short way, for a word that one window shows whole, and a careful way, which
//! takes any word and judges what is none: cut short, or bad.

use super::bit_reader::BitReader;

pub const BAD: u32 = 9;

const LARGEST_WORD: u64 = 4_294_967_295;

pub fn gamma(bits: &mut BitReader) -> Result<u32, u32> {
    let window = bits.window();
    let width = 2 * window.leading_zeros() + 1;
    if bits.shows(width) {
        bits.pass(width);
        return Ok((window >> (64 - width)) as u32);
    }
    careful_gamma(bits)
}

#[cold]
fn careful_gamma(bits: &mut BitReader) -> Result<u32, u32> {
    let zeros = bits.zeros();
    if zeros > 31 {
        return Err(BAD);
    }
    bits.number(zeros as u32 + 1)
}

pub fn delta(bits: &mut BitReader) -> Result<u32, u32> {
    let window = bits.window();
    let zeros = window.leading_zeros();
    if zeros <= 5 {
        let length = (window >> (63 - 2 * zeros)) as u32;
        let digits = window << (2 * zeros + 1);
        let width = 2 * zeros + 1 + length;
        if length <= 32 && begins_with_one(digits) && bits.shows(width) {
            bits.pass(width);
            return Ok((digits >> (64 - length)) as u32);
        }
    }
    careful_delta(bits)
}

#[cold]
fn careful_delta(bits: &mut BitReader) -> Result<u32, u32> {
    let zeros = bits.zeros();
    if zeros > 5 {
        return Err(BAD);
    }
    // With zeros for the bits that are cut off, this is the least length that begins so; 0 if its one is cut off too.
    let width = zeros as u32 + 1;
    let there = bits.left().min(u64::from(width)) as u32;
    let length = bits.number(there)? << (width - there);
    let digits_begin_with_zero = bits.left() > 0 && !begins_with_one(bits.window());
    if length > 32 || digits_begin_with_zero {
        return Err(BAD);
    }
    bits.number(length.max(1))
}

fn begins_with_one(window: u64) -> bool {
    window >> 63 == 1
}

pub fn rice(bits: &mut BitReader, k: u32) -> Result<u32, u32> {
    let window = bits.window();
    let quotient = window.leading_zeros();
    let width = quotient + 1 + k;
    if bits.shows(width) {
        bits.pass(width);
        let remainder = (window >> (64 - width)) & ((1 << k) - 1);
        return rice_word(k, u64::from(quotient), remainder);
    }
    careful_rice(bits, k)
}

#[cold]
fn careful_rice(bits: &mut BitReader, k: u32) -> Result<u32, u32> {
    let quotient = bits.zeros();
    if quotient > (LARGEST_WORD - 1) >> k {
        return Err(BAD);
    }
    bits.number(1)?;
    let remainder = bits.number(k)?;
    rice_word(k, quotient, u64::from(remainder))
}

fn rice_word(k: u32, quotient: u64, remainder: u64) -> Result<u32, u32> {
    u32::try_from((quotient << k) + remainder + 1).map_err(|_| BAD)
}

pub fn variable_byte(bits: &mut BitReader) -> Result<u32, u32> {
    let window = bits.window();
    let mut word = 0;
    for width in [8, 16, 24, 32, 40] {
        let unit = window >> (64 - width);
        word = word << 7 | unit & 0x7F;
        if unit & 0x80 == 0 {
            if bits.shows(width) && first_group(window) != 0 && word <= LARGEST_WORD {
                bits.pass(width);
                return Ok(word as u32);
            }
            break;
        }
    }
    careful_variable_byte(bits)
}

fn first_group(window: u64) -> u64 {
    window >> 56 & 0x7F
}

#[cold]
fn careful_variable_byte(bits: &mut BitReader) -> Result<u32, u32> {
    let mut word = 0;
    loop {
        let more = bits.number(1)? == 1;
        // This group and another one would make it longer than 32 bits.
        if more && word >= 1 << 18 {
            return Err(BAD);
        }
        word = word << 7 | bits.number(7)?;
        if word == 0 {
            return Err(BAD);
        }
        if !more {
            return Ok(word);
        }
    }
}
