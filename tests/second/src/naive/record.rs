//! A whole record as bits.

use super::bits::{in_width, Bits};
use super::codes::{gamma, rice_length};
use super::heading::{Code, Heading};
use super::interpolative;

/// Code, kind, Rice's k, and the count.
pub fn heading_bits(heading: Heading, count: usize) -> Bits {
    let mut bits = in_width(u64::from(heading.code.number()), 4);
    bits.extend(in_width(u64::from(heading.kind.number()), 2));
    if let Code::Rice(k) = heading.code {
        bits.extend(in_width(u64::from(k), 5));
    }
    bits.extend(gamma(count as u64 + 1));
    bits
}

/// How many bits the record of a list without faults has; only Rice is too long to be built for this.
pub fn length(heading: Heading, values: &[i64]) -> u64 {
    let Code::Rice(k) = heading.code else {
        return bits(heading, values).len() as u64;
    };
    let words = heading.kind.words(values);
    let body: u64 = words.iter().map(|&word| rice_length(k, word)).sum();
    heading_bits(heading, values.len()).len() as u64 + body
}

/// The record of a list without faults.
pub fn bits(heading: Heading, values: &[i64]) -> Bits {
    let mut bits = heading_bits(heading, values.len());
    match heading.code.of_words() {
        Some(code) => bits.extend(heading.kind.words(values).into_iter().flat_map(|word| code.image(word))),
        None => bits.extend(interpolative::body(values)),
    }
    bits
}
