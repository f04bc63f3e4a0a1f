//! Lists of about the longest length, in buffers of about the longest length.

use super::{in_every_code, Cases};
use crate::rooms::{length, MOST_BYTES};

const COUNTS: [i64; 7] = [255, 256, 1_000, 4_095, 4_096, 4_097, 5_000];

pub fn run(cases: &mut Cases) {
    for count in COUNTS {
        for (kind, values) in shapes(count) {
            for request in in_every_code(kind, &values, [0, 3, 20, 31].into_iter()) {
                cases.in_all_rooms(&request);
                let bits = 8 * MOST_BYTES as u64;
                let full = bits.saturating_sub(length(&request));
                for (bytes, start) in [(MOST_BYTES, full), (MOST_BYTES, full + 1), (MOST_BYTES + 1, 0)] {
                    cases.write(bytes, start, &request);
                }
            }
        }
    }
}

/// All equal, steadily and unsteadily rising, all gaps at one end, and the largest of each range.
fn shapes(count: i64) -> Vec<(u32, Vec<i64>)> {
    let list = |value: &dyn Fn(i64) -> i64| (0..count).map(value).collect::<Vec<_>>();
    vec![
        (0, list(&|_| 1)),
        (0, list(&|_| 4_294_967_295)),
        (0, list(&|i| i * i + 1)),
        (1, list(&|_| 0)),
        (1, list(&|_| 4_294_967_294)),
        (1, list(&|i| i)),
        (1, list(&|i| i / 3)),
        (1, list(&|i| i * i / 7)),
        (1, list(&|i| if i + 1 < count { 0 } else { 4_294_967_294 })),
        (1, list(&|i| if i == 0 { 0 } else { 4_294_967_294 })),
        (1, list(&|i| i * (4_294_967_294 / count))),
        (2, list(&|_| -1)),
        (2, list(&|i| if i % 2 == 0 { 2_147_483_647 } else { -2_147_483_647 })),
        (2, list(&|i| if i % 3 == 0 { -i - 1 } else { i })),
    ]
}
