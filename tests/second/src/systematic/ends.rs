//! The end mark at every bit of short buffers and about the end of long ones.

use super::positions::starts;
use super::Cases;
use crate::rooms::MOST_BYTES;

pub fn run(cases: &mut Cases) {
    for bytes in [0, 1, 2, 3, 4, 9, 65_535, MOST_BYTES, MOST_BYTES + 1] {
        for start in starts(bytes) {
            cases.end_on_every_background(bytes, start);
        }
    }
}
