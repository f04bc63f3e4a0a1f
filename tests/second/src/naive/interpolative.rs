//! The body of code 5, by places l to r as document 01 tells it.

use super::bits::{in_width, Bits};
use super::codes::delta;

/// The body for instants t1 to tn.
pub fn body(instants: &[i64]) -> Bits {
    let n = instants.len() as i64;
    let Some(&last) = instants.last() else {
        return Bits::new();
    };
    let mut bits = delta(last as u64 + 1);
    let rising = Rising { instants };
    rising.part(1, n - 1, 1, rising.s(n) - 1, &mut bits);
    bits
}

/// The rising list s, whose places count from 1.
struct Rising<'a> {
    instants: &'a [i64],
}

impl Rising<'_> {
    fn s(&self, place: i64) -> i64 {
        self.instants[place as usize - 1] + place
    }

    fn part(&self, l: i64, r: i64, low: i64, hi: i64, bits: &mut Bits) {
        if l > r {
            return;
        }
        let m = (l + r) / 2;
        let middle = self.s(m);
        let possible = hi - low - (r - l) + 1;
        bits.extend(in_width((middle - low - (m - l)) as u64, fewest_bits(possible)));
        self.part(l, m - 1, low, middle - 1, bits);
        self.part(m + 1, r, middle + 1, hi, bits);
    }
}

/// The fewest bits b with 2^b >= V.
pub fn fewest_bits(possible: i64) -> u32 {
    let mut b = 0;
    while 2i64.pow(b) < possible {
        b += 1;
    }
    b
}
