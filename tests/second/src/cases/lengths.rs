//! Lists of 4,096 values, counts that are too large, and streams of 65,536 bytes and more.

use super::maker::{bits_of, corrections, instants, padded, plain, refused, Cases};
use crate::naive::bits::{in_width, Bits};
use crate::naive::codes::gamma;
use crate::naive::heading::Code::{Delta, Gamma, Interpolative, Rice, VariableByte};
use crate::naive::{MOST_BYTES, MOST_VALUES};
use crate::random::Random;

const SEED: u64 = 1;

pub fn make(cases: &mut Cases) {
    longest_lists(cases);
    counts_too_large(cases);
    longest_streams(cases);
}

/// Values that look random, the same in every run.
fn longest_lists(cases: &mut Cases) {
    let mut random = Random::seeded(SEED);
    let words: Vec<i64> = (0..MOST_VALUES).map(|_| random.of_bits(12).max(1) as i64).collect();
    let signed: Vec<i64> = words.iter().map(|&word| if random.once_in(2) { word } else { -word }).collect();
    let sum = |instant: &mut i64, word: &i64| {
        *instant += word % 16;
        Some(*instant)
    };
    let rising: Vec<i64> = words.iter().scan(0, sum).collect();
    let lists = [
        ("gamma-instants-4096", instants(Gamma, &rising)),
        ("interpolative-instants-4096", instants(Interpolative, &rising)),
        ("delta-plain-4096", plain(Delta, &words)),
        ("variable-byte-plain-4096", plain(VariableByte, &words)),
        ("rice-4-corrections-4096", corrections(Rice(4), &signed)),
    ];
    for (name, record) in lists {
        cases.accepted(name, "The longest list there is", &[record]);
    }
}

fn counts_too_large(cases: &mut Cases) {
    let nearly = [instants(Interpolative, &[0; 4_095])];
    let accepted = cases.accepted("interpolative-instants-4095-zeros", "One value less than the most", &nearly);
    accepted.turned(29, refused(8, 6), "count-4097-by-one-bit", "The count is 4,097");
    let all_there = [begun_with_count(4_097), vec![true; 4_097], vec![false; 4]].concat();
    cases.refused(refused(8, 6), "count-4097-gamma", "4,097 values that all stand there", padded(&all_there));
    let shows = "The count is refused before the body is found cut";
    cases.refused(refused(8, 6), "count-4097-cut", shows, padded(&begun_with_count(4_097)));
    let shows = "The largest count that its word can tell";
    cases.refused(refused(8, 6), "count-largest", shows, padded(&begun_with_count(4_294_967_294)));
}

/// The heading of a plain gamma record that tells this count.
fn begun_with_count(count: u64) -> Bits {
    [in_width(1, 4), in_width(0, 2), gamma(count + 1)].concat()
}

/// A Rice word with k = 0 fills any stream with a single value.
fn longest_streams(cases: &mut Cases) {
    let filling = |bytes: usize| plain(Rice(0), &[8 * bytes as i64 - 18]);
    let shows = "A Rice word of 524,270 bits fills the longest stream to its last bit";
    cases.accepted("stream-of-65536-bytes", shows, &[filling(MOST_BYTES)]);
    let longer = [bits_of(&[filling(MOST_BYTES + 1)]), vec![false; 4]].concat();
    cases.refused(refused(12, 0), "stream-of-65537-bytes", "Without a fault but for its length", padded(&longer));
    let shows = "The length is judged before the unknown code";
    cases.refused(refused(12, 0), "65537-bytes-ff", shows, vec![0xFF; MOST_BYTES + 1]);
}
