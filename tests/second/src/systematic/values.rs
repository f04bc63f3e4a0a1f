//! Values at the ends of the ranges and about every power of two, alone and in pairs, in every code.

use super::{in_every_code, Cases};
use crate::rooms::MOST_BYTES;

const UNSIGNED_ENDS: [i64; 8] = [0, 1, 2, 2_147_483_647, 2_147_483_648, 4_294_967_293, 4_294_967_294, 4_294_967_295];
const SIGNED_ENDS: [i64; 9] =
    [-2_147_483_648, -2_147_483_647, -2_147_483_646, -1, 0, 1, 2, 2_147_483_646, 2_147_483_647];

pub fn run(cases: &mut Cases) {
    alone(cases);
    pairs(cases);
    brimful(cases);
}

fn alone(cases: &mut Cases) {
    for kind in 0..=2 {
        for value in about_powers(kind) {
            for request in in_every_code(kind, &[value], 0..=32) {
                for start in (0..=8).chain([71]) {
                    cases.write(24, start, &request);
                }
                cases.in_all_rooms(&request);
            }
        }
    }
}

fn about_powers(kind: u32) -> Vec<i64> {
    let sizes = (0..=32).flat_map(|power| [-1, 0, 1].map(|beside| (1i64 << power) + beside));
    let signed = |size: i64| [size, -size];
    let mut values: Vec<i64> = match kind {
        2 => sizes.flat_map(signed).filter(|&value| i32::try_from(value).is_ok()).collect(),
        _ => sizes.filter(|&value| u32::try_from(value).is_ok()).collect(),
    };
    values.sort();
    values.dedup();
    values
}

fn pairs(cases: &mut Cases) {
    for kind in 0..=2 {
        let ends: &[i64] = if kind == 2 { &SIGNED_ENDS } else { &UNSIGNED_ENDS };
        for &first in ends {
            for &second in ends {
                for request in in_every_code(kind, &[first, second], 0..=31) {
                    cases.in_all_rooms(&request);
                }
            }
        }
    }
}

/// Single Rice words that fill the longest buffer to the last bit, and those one and two longer.
fn brimful(cases: &mut Cases) {
    let bits = 8 * MOST_BYTES as u64;
    for k in 0..=12 {
        for start in [0, 1, 7, 8, bits / 2 + 3] {
            let heading = 4 + 2 + 5 + 3;
            let zeros = bits - start - heading - 1 - k;
            for beside in 0..=2 {
                let word = ((zeros + beside) << k) + 1;
                let words = [(0, word as i64), (1, word as i64 - 1), (2, correction(word))];
                for (kind, value) in words {
                    for request in in_every_code(kind, &[value], [k as u32].into_iter()) {
                        cases.write(MOST_BYTES, start, &request);
                    }
                }
            }
        }
    }
}

/// The correction whose word this is.
fn correction(word: u64) -> i64 {
    match word as i64 {
        odd if odd % 2 == 1 => -(odd / 2),
        even => even / 2,
    }
}
