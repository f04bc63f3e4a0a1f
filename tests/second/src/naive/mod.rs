//! Document 01 over lists of single bits, with no care for speed: what is slow and plain here is easy to hold against the paper.

pub mod bits;
pub mod codes;
pub mod heading;
pub mod interpolative;
pub mod kinds;
pub mod reading;
pub mod record;
pub mod writer;

#[cfg(test)]
mod worked_numbers;

pub const MOST_BYTES: usize = 65_536;
pub const MOST_VALUES: usize = 4_096;
