//! A word is what has its bits at the front, so each word that is guessed from the bits is judged by its own image alone.

use crate::naive::bits::number;
use crate::naive::codes::{gamma, WordCode, LARGEST_WORD, LONGEST_BINARY};

/// The word whose bits stand at the front, and how many they are; else 6 for a proper beginning of a word's bits, else 9.
pub fn first(code: WordCode, rest: &[bool]) -> Result<(u64, usize), u32> {
    let word = smallest(code, rest).filter(|&word| word <= LARGEST_WORD).ok_or(9u32)?;
    let image = code.image(word);
    if rest.starts_with(&image) {
        Ok((word, image.len()))
    } else if image.starts_with(rest) {
        Err(6)
    } else {
        Err(9)
    }
}

/// The smallest word whose bits agree with these as far as both reach, if any word's do: no other needs to be looked at.
/// Where these bits end, zeros are supposed, but for a one that must come.
fn smallest(code: WordCode, rest: &[bool]) -> Option<u64> {
    match code {
        WordCode::Gamma => {
            let zeros = zeros(rest);
            binary_of_length(rest, zeros, zeros + 1)
        }
        WordCode::Delta => {
            let length = smallest(WordCode::Gamma, rest)?;
            binary_of_length(rest, gamma(length).len(), length as usize)
        }
        WordCode::Rice(k) => {
            let q = zeros(rest);
            Some(1 + q as u64 * 2u64.pow(k) + digits(rest, q + 1, k as usize))
        }
        WordCode::VariableByte => Some(smallest_in_groups(rest)),
    }
}

/// The smallest w with a B(w) of this length that agrees with the bits from `from` on.
fn binary_of_length(rest: &[bool], from: usize, length: usize) -> Option<u64> {
    if length > LONGEST_BINARY {
        return None;
    }
    let leading_one = 2u64.pow(length as u32 - 1);
    Some(leading_one + digits(rest, from + 1, length - 1))
}

/// As many groups as the flags ask for, a flag that is missing asking for no further one; six are too many already.
fn smallest_in_groups(rest: &[bool]) -> u64 {
    let further = rest.iter().step_by(8).take(5).take_while(|&&flag| flag).count();
    let groups = (0..=further).map(|group| digits(rest, 8 * group + 1, 7));
    let word = groups.fold(0, |word, group| 128 * word + group);
    let fewest_that_need_so_many = 128u64.pow(further as u32);
    word.max(fewest_that_need_so_many)
}

/// How many zeros stand before the first one or before the end.
fn zeros(rest: &[bool]) -> usize {
    rest.iter().take_while(|&&bit| !bit).count()
}

/// The number in these bits, where zeros stand for those beyond the end.
fn digits(rest: &[bool], from: usize, width: usize) -> u64 {
    let end = rest.len().min(from + width);
    let there = rest.get(from..end).unwrap_or(&[]);
    number(there) << (width - there.len())
}
