//! Starts at, about and far beyond a buffer's end, also those whose sums or products would pass 64 bits.

use super::{in_every_code, Cases};
use crate::rooms::MOST_BYTES;

const SIZES: [usize; 12] = [0, 1, 2, 3, 7, 8, 9, 64, 65_535, MOST_BYTES, MOST_BYTES + 1, MOST_BYTES + 9];

pub fn run(cases: &mut Cases) {
    let lists: [(u32, &[i64]); 5] = [(0, &[]), (0, &[1]), (1, &[5, 5, 9]), (1, &[9, 5]), (2, &[3, -3])];
    for bytes in SIZES {
        for start in starts(bytes) {
            for (kind, values) in lists {
                for request in in_every_code(kind, values, [0, 4].into_iter()) {
                    cases.write(bytes, start, &request);
                }
            }
        }
    }
}

pub fn starts(bytes: usize) -> Vec<u64> {
    let bits = 8 * bytes as u64;
    let mut starts: Vec<u64> = (0..=8).collect();
    starts.extend(bits.saturating_sub(33)..=bits + 9);
    starts.extend([bits + 64, 1 << 31, 1 << 32, (1 << 32) + 1, 1 << 61, (1 << 61) + 1, 1 << 63]);
    starts.extend((0..=64).map(|below| u64::MAX - below));
    starts
}
