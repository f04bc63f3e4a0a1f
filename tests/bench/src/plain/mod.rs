//! The library's duties as one does them in plain Rust, without proofs: what the library is timed beside.

mod bit_reader;
mod bit_writer;
mod body;
mod heading;
mod reader;
#[cfg(test)]
mod readings;
mod record;
mod words;
mod writer;

pub use reader::{check, look_up, read, search, Totals};
pub use record::Found;
pub use writer::write;

pub const MOST_BYTES: usize = 65_536;
pub const MOST_VALUES: usize = 4_096;
pub const LARGEST_INSTANT: u32 = 4_294_967_294;

/// A refusal's number in the rules, and the number told with it.
#[derive(Clone, Copy, Debug, PartialEq, Eq)]
pub struct Refusal {
    pub answer: u32,
    pub told: u64,
}

impl Refusal {
    /// A refusal that comes with the number 0.
    fn untold(answer: u32) -> Refusal {
        Refusal { answer, told: 0 }
    }
}
