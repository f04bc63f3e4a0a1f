//! The same judgement of words from the images alone: every range of words of one length is searched for one that fits.

use super::words::first;
use crate::naive::bits::{in_width, Bits};
use crate::naive::codes::{WordCode, LARGEST_WORD, LONGEST_BINARY};
use crate::random::Random;

/// Ranges that hold all words between them, or all of Rice's that can fit so many bits;
/// within one all images are equally long, and rise as their words do.
fn ranges(code: WordCode, bits: usize) -> Vec<(u64, u64)> {
    let bounds: Vec<(u64, u64)> = match code {
        WordCode::Gamma | WordCode::Delta => {
            (1..=LONGEST_BINARY as u32).map(|length| (2u64.pow(length - 1), 2u64.pow(length) - 1)).collect()
        }
        WordCode::Rice(k) => (0..=bits as u64).map(|q| (q * 2u64.pow(k) + 1, (q + 1) * 2u64.pow(k))).collect(),
        WordCode::VariableByte => (1..=5).map(|groups| (128u64.pow(groups - 1), 128u64.pow(groups) - 1)).collect(),
    };
    let within = |&(low, _): &(u64, u64)| low <= LARGEST_WORD;
    bounds.into_iter().filter(within).map(|(low, high)| (low, high.min(LARGEST_WORD))).collect()
}

/// The first word of the range whose image agrees with the bits as far as both reach.
fn fitting(code: WordCode, (mut low, mut high): (u64, u64), rest: &[bool]) -> Option<u64> {
    let both = rest.len().min(code.image(low).len());
    while low < high {
        let middle = (low + high) / 2;
        if code.image(middle)[..both] < rest[..both] {
            low = middle + 1;
        } else {
            high = middle;
        }
    }
    (code.image(low)[..both] == rest[..both]).then_some(low)
}

fn by_search(code: WordCode, rest: &[bool]) -> Result<(u64, usize), u32> {
    let fitting = ranges(code, rest.len()).into_iter().filter_map(|range| fitting(code, range, rest));
    let mut answer = Err(if rest.is_empty() { 6 } else { 9 });
    for word in fitting {
        let length = code.image(word).len();
        if length <= rest.len() {
            return Ok((word, length));
        }
        answer = Err(6);
    }
    answer
}

fn agree(code: WordCode, rest: &[bool]) {
    assert_eq!(first(code, rest), by_search(code, rest), "{code:?}, {rest:?}");
}

const CODES: [WordCode; 10] = [
    WordCode::Gamma,
    WordCode::Delta,
    WordCode::VariableByte,
    WordCode::Rice(0),
    WordCode::Rice(1),
    WordCode::Rice(4),
    WordCode::Rice(27),
    WordCode::Rice(29),
    WordCode::Rice(30),
    WordCode::Rice(31),
];

#[test]
fn all_short_bits() {
    for code in CODES {
        for length in 0..=11 {
            for number in 0..2u64.pow(length) {
                agree(code, &in_width(number, length));
            }
        }
    }
}

/// Zeros or a word's bits, then random ones, and a bit turned: so that most strings get far before they fail.
fn long_bits(code: WordCode, random: &mut Random) -> Bits {
    let mut bits = match random.once_in(2) {
        true => vec![false; random.between(0, 34) as usize],
        false => {
            let most_bits = if let WordCode::Rice(k) = code { u64::from(k) + 5 } else { 32 };
            code.image(random.of_bits(most_bits.min(32)).max(1))
        }
    };
    let density = random.between(1, 4);
    bits.extend((0..random.between(0, 45)).map(|_| random.once_in(density)));
    if random.once_in(2) && !bits.is_empty() {
        let at = random.between(0, bits.len() as u64 - 1) as usize;
        bits[at] = !bits[at];
    }
    bits.truncate(random.between(0, 90) as usize);
    bits
}

#[test]
fn long_bits_at_random() {
    let mut random = Random::seeded(1);
    for code in CODES {
        for _ in 0..1_500 {
            agree(code, &long_bits(code, &mut random));
        }
    }
}

#[test]
fn every_word_is_taken_and_every_beginning_is_cut() {
    let mut random = Random::seeded(2);
    for code in CODES {
        let edges = [1, 2, 3, 127, 128, 16_383, 16_384, LARGEST_WORD - 1, LARGEST_WORD];
        let words = edges.into_iter().chain((0..300).map(|_| random.of_bits(32).max(1)));
        for word in words.filter(|word| !matches!(code, WordCode::Rice(k) if word >> k > 300)) {
            let image = code.image(word);
            assert_eq!(first(code, &[&image[..], &[true, false]].concat()), Ok((word, image.len())));
            for stop in 0..image.len() {
                assert_eq!(first(code, &image[..stop]), Err(6));
            }
        }
    }
}
