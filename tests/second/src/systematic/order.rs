//! Several refusals at once, in every combination, so that their order shows.

use super::{entry_of, Cases};
use crate::rooms::MOST_BYTES;
use second::naive::writer::Request;

/// Code, parameter and what is added to the kind; each but the first few is refused.
const HEADINGS: [(u32, u32, u32); 10] =
    [(1, 0, 0), (2, 77, 0), (3, 31, 0), (4, 32, 0), (5, 0, 0), (0, 0, 0), (6, 0, 0), (3, 32, 0), (1, 0, 3), (5, 0, 3)];

pub fn run(cases: &mut Cases) {
    for kind in 0..=2 {
        for (code, parameter, beside) in HEADINGS {
            for values in lists(kind) {
                let request = Request { entry: entry_of(kind), code, parameter, kind: kind + beside, values };
                for (bytes, start) in positions() {
                    cases.write(bytes, start, &request);
                }
            }
        }
    }
}

/// Lists of an allowed and of a forbidden length, with a fault at the front, at the back, twice or nowhere.
fn lists(kind: u32) -> Vec<Vec<i64>> {
    let outside: [i64; 2] = [[0, 0], [4_294_967_295, 4_294_967_295], [0, -2_147_483_648]][kind as usize];
    let mut lists = Vec::new();
    for count in [0, 1, 3, 4_095, 4_096, 4_097] {
        let sound = vec![20; count];
        lists.push(sound.clone());
        if count == 0 {
            continue;
        }
        let mut first = sound.clone();
        first[0] = outside[0];
        let mut last = sound.clone();
        last[count - 1] = outside[1];
        let mut falling = sound.clone();
        falling[count / 2] = 19;
        let mut both = falling.clone();
        both[count - 1] = outside[0];
        let mut both_turned = last.clone();
        both_turned[count / 2] = outside[1];
        lists.extend([first, last, falling, both, both_turned]);
    }
    lists
}

/// Enough room, too little, none, and positions outside the rule.
fn positions() -> [(usize, u64); 8] {
    [(40_000, 3), (40_000, 319_998), (0, 0), (1, 8), (0, 1), (2, 17), (2, u64::MAX), (MOST_BYTES + 1, 0)]
}
