//! A record's body: its values are formed and judged one by one, and told with their places.

use super::bit_reader::BitReader;
use super::heading::{length, Code, Kind};
use super::words::{delta, gamma, rice, variable_byte, BAD};
use super::Refusal;

const NO_VALUE: u32 = 10;

pub fn body(
    bits: &mut BitReader,
    code: Code,
    kind: Kind,
    count: usize,
    tell: &mut impl FnMut(usize, u32),
) -> Result<(), Refusal> {
    match code {
        Code::Gamma => by_words(bits, gamma, kind, count, tell),
        Code::Delta => by_words(bits, delta, kind, count, tell),
        Code::Rice(k) => by_words(bits, |bits| rice(bits, k), kind, count, tell),
        Code::VariableByte => by_words(bits, variable_byte, kind, count, tell),
        Code::Interpolative => interpolative(bits, count, tell),
    }
}

fn by_words(
    bits: &mut BitReader,
    word: impl Fn(&mut BitReader) -> Result<u32, u32>,
    kind: Kind,
    count: usize,
    tell: &mut impl FnMut(usize, u32),
) -> Result<(), Refusal> {
    let mut before = 0;
    for place in 0..count {
        before = bits.field(|bits| value(kind, before, word(bits)?))?;
        tell(place, before);
    }
    Ok(())
}

fn value(kind: Kind, before: u32, word: u32) -> Result<u32, u32> {
    match kind {
        Kind::Plain => Ok(word),
        // The sum is the instant + 1, and the largest instant + 1 is the largest that fits.
        Kind::Instants => before.checked_add(word).map(|sum| sum - 1).ok_or(NO_VALUE),
        // Only the stream check comes here, and it needs no more than that there is a value.
        Kind::Corrections if word == 1 => Err(NO_VALUE),
        Kind::Corrections => Ok(word),
    }
}

fn interpolative(bits: &mut BitReader, count: usize, tell: &mut impl FnMut(usize, u32)) -> Result<(), Refusal> {
    if count == 0 {
        return Ok(());
    }
    let last = bits.field(delta)? - 1;
    tell(count - 1, last);
    part(bits, 0, count - 1, 0, last, tell)
}

/// Reads so many elements from a place on, middle, left, right, with the bounds that the writer's offsets have.
fn part(
    bits: &mut BitReader,
    first: usize,
    count: usize,
    low: u32,
    high: u32,
    tell: &mut impl FnMut(usize, u32),
) -> Result<(), Refusal> {
    if count == 0 {
        return Ok(());
    }
    let before = (count - 1) / 2;
    let middle = low + bits.field(|bits| offset(bits, high - low))?;
    tell(first + before, middle);
    part(bits, first, before, low, middle, tell)?;
    part(bits, first + before + 1, count - before - 1, middle, high, tell)
}

fn offset(bits: &mut BitReader, largest: u32) -> Result<u32, u32> {
    let offset = bits.number(length(largest))?;
    if offset > largest {
        return Err(BAD);
    }
    Ok(offset)
}
