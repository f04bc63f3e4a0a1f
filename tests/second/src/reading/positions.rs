//! Starts and stops within and outside the rule, in buffers up to and beyond the longest.

use super::calls::every_entry;
use super::cases::Cases;
use crate::rooms::{background, MOST_BYTES};
use second::naive::reading::readers::Span;

const SIZES: [usize; 9] = [0, 1, 2, 3, 9, 65_535, MOST_BYTES, MOST_BYTES + 1, MOST_BYTES + 9];

pub fn run(cases: &mut Cases) {
    for bytes in SIZES {
        about_the_end(cases, bytes);
    }
}

/// Starts and stops about the end of a buffer and where sums or products would pass 64 bits.
fn about_the_end(cases: &mut Cases, bytes: usize) {
    let bits = 8 * bytes as u64;
    let mut about: Vec<u64> = vec![0, 1, 7, 8];
    about.extend(bits.saturating_sub(9)..=bits + 9);
    about.extend([1 << 31, 1 << 32, (1 << 32) + 1, 1 << 61, (1 << 61) + 1, 1 << 63, u64::MAX - 8, u64::MAX]);
    let look = cases.random.number();
    let buffer = background(look, bytes, cases.random);
    for &start in &about {
        for &stop in &about {
            // The naive readers take a buffer apart up to the stop, so the far stops are too slow to be all tried.
            let slow = bytes <= MOST_BYTES && start <= stop && (1_000..=bits).contains(&stop);
            if slow && !cases.random.once_in(24) {
                continue;
            }
            let calls = every_entry(cases.random, &[1, 2]);
            cases.make(Span { bytes: &buffer, start, stop }, &calls);
        }
    }
}
