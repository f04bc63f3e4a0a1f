//! The bits up to the stop, taken field by field.

use super::words;
use crate::naive::bits::number;
use crate::naive::codes::WordCode;

/// An answer other than 0, with the number it tells.
#[derive(Clone, Copy, Debug, PartialEq, Eq)]
pub struct Refusal {
    pub answer: u32,
    pub told: u64,
}

/// A field or word that was there in full, and the bit where it starts.
#[derive(Clone, Copy)]
pub struct Field {
    pub value: u64,
    at: usize,
}

impl Field {
    pub fn refused(self, answer: u32) -> Refusal {
        Refusal { answer, told: self.at as u64 }
    }
}

/// The bits from bit 0 of the buffer up to the stop, so that nothing from the stop on can matter.
#[derive(Clone, Copy)]
pub struct Cursor<'a> {
    bits: &'a [bool],
    at: usize,
}

impl<'a> Cursor<'a> {
    pub fn new(bits: &'a [bool], start: usize) -> Cursor<'a> {
        Cursor { bits, at: start }
    }

    pub fn at(&self) -> u64 {
        self.at as u64
    }

    pub fn rest(&self) -> &'a [bool] {
        &self.bits[self.at..]
    }

    /// A field of fixed width is cut short if fewer bits are left, whatever they are.
    pub fn fixed(&mut self, width: u32) -> Result<Field, Refusal> {
        match self.rest().get(..width as usize) {
            Some(bits) => Ok(self.passed(number(bits), bits.len())),
            None => Err(Refusal { answer: 6, told: self.at() }),
        }
    }

    pub fn word(&mut self, code: WordCode) -> Result<Field, Refusal> {
        match words::first(code, self.rest()) {
            Ok((word, length)) => Ok(self.passed(word, length)),
            Err(answer) => Err(Refusal { answer, told: self.at() }),
        }
    }

    fn passed(&mut self, value: u64, length: usize) -> Field {
        let field = Field { value, at: self.at };
        self.at += length;
        field
    }
}
