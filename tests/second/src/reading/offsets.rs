//! Interpolative bodies with offsets at and beyond the possible ones, for few and for very many possible values.

use super::call::Call;
use super::calls::every_entry;
use super::cases::Cases;
use super::placed::{ended, Placed};
use second::naive::bits::{in_width, Bits};
use second::naive::codes::{delta, gamma};
use second::naive::heading::Entry;
use second::naive::interpolative::fewest_bits;

/// Few enough to try all bits behind a small last instant.
const ALL_BITS: u32 = 9;

const LAST_INSTANTS: [i64; 14] =
    [0, 1, 2, 3, 4, 254, 255, 256, 65_535, 2_147_483_646, 2_147_483_647, 2_147_483_648, 4_294_967_293, 4_294_967_294];

pub fn run(cases: &mut Cases) {
    small(cases);
    for last in LAST_INSTANTS {
        for count in [1, 2, 3, 4, 5, 8, 100, 4_096] {
            first_offsets(cases, last, count);
        }
    }
}

/// Up to the first offset.
fn begun(last: i64, count: u64) -> Bits {
    [in_width(5, 4), in_width(1, 2), gamma(count + 1), delta(last as u64 + 1)].concat()
}

fn small(cases: &mut Cases) {
    for last in 0..=9 {
        for count in 2..=6 {
            for number in 0..1 << ALL_BITS {
                let bits = [begun(last, count), in_width(number, ALL_BITS)].concat();
                let placed = Placed::among_others(cases.random, &bits);
                let cut = cases.random.between(0, u64::from(ALL_BITS));
                let calls = calls(cases, count);
                cases.make(placed.up_to(placed.end), &calls);
                cases.make(placed.up_to(placed.end - cut), &calls);
            }
        }
    }
}

fn calls(cases: &mut Cases, count: u64) -> Vec<Call> {
    let place = cases.random.between(0, count);
    vec![
        Call::Read { entry: Entry::Unsigned, kind: 1, room: count as usize },
        Call::LookUp { entry: Entry::Unsigned, kind: 1, place },
        Call::Search { instant: cases.random.between(0, 10) as u32 },
    ]
}

/// The first offset has one value more to choose from than the last instant says, however many instants there are.
fn first_offsets(cases: &mut Cases, last: i64, count: u64) {
    let possible = last + 1;
    let width = fewest_bits(possible);
    let all_ones = (1u64 << width) - 1;
    let about = [0, 1, possible / 2, possible - 2, possible - 1, possible, possible + 1];
    let offsets = about.into_iter().filter(|&offset| offset >= 0).map(|offset| offset as u64).chain([all_ones]);
    for offset in offsets.filter(|&offset| offset <= all_ones) {
        for density in [1, 2, 40] {
            let behind: Bits = (0..200).map(|_| cases.random.once_in(density)).collect();
            let bits = [begun(last, count), in_width(offset, width), behind].concat();
            let placed = Placed::among_others(cases.random, &bits);
            let drawn = cases.random.between(placed.start, placed.end);
            for stop in [placed.end - 200, placed.end - 201, placed.end, drawn] {
                let calls = every_entry(cases.random, &vec![last; count as usize]);
                cases.make(placed.up_to(stop), &calls);
            }
            cases.check(&ended(&bits));
        }
    }
}
