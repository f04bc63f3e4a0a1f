//! The writers' whole outcome: the answer, the number told, and every byte afterwards.

use super::bits::{place, Bits};
use super::heading::{chosen, Entry, Heading};
use super::kinds::{first_fault, Fault};
use super::record;
use super::{MOST_BYTES, MOST_VALUES};

#[derive(Clone, Debug, PartialEq, Eq)]
pub struct Outcome {
    pub answer: u32,
    pub told: u64,
    pub bytes: Vec<u8>,
}

/// What a caller of a writer asks for, apart from the buffer and the start.
#[derive(Clone, Debug)]
pub struct Request {
    pub entry: Entry,
    pub code: u32,
    pub parameter: u32,
    pub kind: u32,
    pub values: Vec<i64>,
}

impl Request {
    /// The heading, or the refusal that depends on neither buffer nor start, as its number and what it tells.
    pub fn judged(&self) -> Result<Heading, (u32, u64)> {
        let heading = chosen(self.entry, self.code, self.parameter, self.kind).ok_or((4, 0))?;
        if self.values.len() > MOST_VALUES {
            return Err((1, 0));
        }
        match first_fault(heading.kind, &self.values) {
            Some((Fault::OutsideRange, at)) => Err((2, at as u64)),
            Some((Fault::BelowTheOneBefore, at)) => Err((3, at as u64)),
            None => Ok(heading),
        }
    }
}

pub fn write(bytes: &[u8], start: u64, request: &Request) -> Outcome {
    let Some(left) = bits_left(bytes, start) else {
        return refused(bytes, 12, 0);
    };
    let heading = match request.judged() {
        Ok(heading) => heading,
        Err((answer, told)) => return refused(bytes, answer, told),
    };
    if left < record::length(heading, &request.values) {
        return refused(bytes, 5, 0);
    }
    written(bytes, start, record::bits(heading, &request.values))
}

/// Writes 0000, and zeros to the end of the byte in which its last zero stands.
pub fn write_end(bytes: &[u8], start: u64) -> Outcome {
    let Some(left) = bits_left(bytes, start) else {
        return refused(bytes, 12, 0);
    };
    if left < 4 {
        return refused(bytes, 5, 0);
    }
    let mut mark = vec![false; 4];
    while !(start as usize + mark.len()).is_multiple_of(8) {
        mark.push(false);
    }
    written(bytes, start, mark)
}

/// The number of bits from the start to the buffer's end, or nothing where the answer is 12.
fn bits_left(bytes: &[u8], start: u64) -> Option<u64> {
    if bytes.len() > MOST_BYTES {
        return None;
    }
    (8 * bytes.len() as u64).checked_sub(start)
}

fn refused(bytes: &[u8], answer: u32, told: u64) -> Outcome {
    Outcome { answer, told, bytes: bytes.to_vec() }
}

fn written(bytes: &[u8], start: u64, bits: Bits) -> Outcome {
    let mut after = bytes.to_vec();
    place(&mut after, start as usize, &bits);
    Outcome { answer: 0, told: start + bits.len() as u64, bytes: after }
}
