//! Words at and beyond their limits, whole and stopped at every bit, in each kind and at several places of a list.

use super::calls::every_entry;
use super::cases::Cases;
use super::placed::{ended, Placed};
use super::records::entry_of;
use second::naive::bits::{in_width, Bits};
use second::naive::codes::{gamma, WordCode, LARGEST_WORD};
use second::naive::heading::chosen;
use second::naive::record::heading_bits;

/// Rice with a smaller k has top quotients that take longer buffers.
const SHORT_RICE: u32 = 23;

/// How many bits before and behind a word's last the stop is tried at, where the word is long.
const ABOUT_THE_END: u64 = 40;

const CODES: [WordCode; 3] = [WordCode::Gamma, WordCode::Delta, WordCode::VariableByte];

pub fn run(cases: &mut Cases) {
    for code in CODES.into_iter().chain((SHORT_RICE..=31).map(WordCode::Rice)) {
        for kind in 0..=2 {
            for word in words(code) {
                in_a_list(cases, code, kind, &word);
            }
        }
        for (first, second) in sums() {
            let words = [code.image(first), code.image(second)].concat();
            at_every_stop(cases, &[heading(code, 1, 2), words].concat());
        }
    }
    for kind in 0..=3 {
        for count in counts() {
            at_every_stop(cases, &[in_width(1, 4), in_width(kind, 2), count].concat());
        }
    }
}

fn heading(code: WordCode, kind: u32, count: usize) -> Bits {
    let (number, parameter) = match code {
        WordCode::Gamma => (1, 0),
        WordCode::Delta => (2, 0),
        WordCode::Rice(k) => (3, k),
        WordCode::VariableByte => (4, 0),
    };
    heading_bits(chosen(entry_of(kind), number, parameter, kind).expect("a valid heading"), count)
}

/// Bits that are words only just, or only just not.
fn words(code: WordCode) -> Vec<Bits> {
    let mut words: Vec<Bits> = [1, 2, 3, LARGEST_WORD - 1, LARGEST_WORD].map(|word| code.image(word)).to_vec();
    words.extend(match code {
        WordCode::Gamma => beyond_gamma(),
        WordCode::Delta => beyond_delta(),
        WordCode::Rice(k) => beyond_rice(k),
        WordCode::VariableByte => beyond_variable_byte(),
    });
    words
}

fn beyond_gamma() -> Vec<Bits> {
    [31, 32, 33, 40].map(|zeros| [vec![false; zeros], vec![true; 34]].concat()).to_vec()
}

/// Lengths about 32 with right and wrong first digits, and lengths that are none.
fn beyond_delta() -> Vec<Bits> {
    let lengths = (1..=3).chain(30..=36).chain([40, 48, 63, 64, 65, LARGEST_WORD]);
    let mut words: Vec<Bits> = Vec::new();
    for length in lengths {
        for first in [false, true] {
            words.push([gamma(length), vec![first], vec![true; 36]].concat());
        }
    }
    words.push(vec![false; 40]);
    words
}

/// The top quotient and those beside it, with the last remainders and the first.
fn beyond_rice(k: u32) -> Vec<Bits> {
    let top = (LARGEST_WORD - 1) >> k;
    let remainders = [0, 1, (1u64 << k).saturating_sub(2), (1 << k) - 1];
    let mut words = Vec::new();
    for zeros in [top - 1, top, top + 1, top + 5] {
        words.extend(remainders.map(|rest| [vec![false; zeros as usize], vec![true], in_width(rest, k)].concat()));
    }
    words
}

/// Groups with leading zeros, too many groups, and five with first groups about 15 and 16.
fn beyond_variable_byte() -> Vec<Bits> {
    let mut words = Vec::new();
    for groups in 1..=6 {
        for first in [0, 1, 15, 16, 127] {
            for later in [0, 127] {
                let group = |number: usize| {
                    let digits = in_width(if number == 0 { first } else { later }, 7);
                    [vec![number + 1 < groups], digits].concat()
                };
                words.push((0..groups).flat_map(group).collect());
            }
        }
    }
    words
}

/// Pairs of words whose instants come to the largest, just below and beyond.
fn sums() -> Vec<(u64, u64)> {
    let mut sums = vec![(LARGEST_WORD, LARGEST_WORD), (1 << 31, (1 << 31) + 1), (1 << 31, 1 << 31)];
    for first in [1, 2, 3, 1 << 16, LARGEST_WORD - 2, LARGEST_WORD - 1, LARGEST_WORD] {
        let up_to_the_largest = LARGEST_WORD - first + 1;
        sums.extend((up_to_the_largest.saturating_sub(1).max(1)..=up_to_the_largest + 2).map(|second| (first, second)));
    }
    sums.retain(|&(_, second)| second <= LARGEST_WORD);
    sums
}

/// Counts about the longest list and words that are no count.
fn counts() -> Vec<Bits> {
    let words = (4_094..=4_099).chain([5_000, 8_192, 65_536, 65_537, 1 << 31, LARGEST_WORD - 1, LARGEST_WORD]);
    words.map(gamma).chain(beyond_gamma()).collect()
}

/// As the only word, the first, and the last behind others.
fn in_a_list(cases: &mut Cases, code: WordCode, kind: u32, word: &[bool]) {
    let (two, nine) = (code.image(2), code.image(9));
    let lists = [(1, vec![]), (2, vec![]), (2, two.clone()), (4, [two, nine.clone(), nine].concat())];
    for (count, before) in lists {
        at_every_stop(cases, &[heading(code, kind, count), before, word.to_vec()].concat());
    }
}

fn at_every_stop(cases: &mut Cases, bits: &[bool]) {
    let placed = Placed::among_others(cases.random, bits);
    let first = placed.end.saturating_sub(ABOUT_THE_END).max(placed.start);
    let last = (placed.end + 2).min(8 * placed.bytes.len() as u64);
    for stop in first..=last {
        let calls = every_entry(cases.random, &[1, 10, 18]);
        cases.make(placed.up_to(stop), &calls);
    }
    cases.check(&ended(bits));
    cases.check(&ended(bits)[..bits.len() / 8]);
}
