//! Streams of records of both families, whole and with every fault there can be at their end.

use super::call::Call;
use super::cases::Cases;
use super::placed::ended;
use super::records::{drawn, with_drawn_list, Record};
use crate::rooms::MOST_BYTES;
use second::naive::bits::{place, Bits};
use second::naive::heading::{chosen, Entry};
use second::naive::reading::readers::Span;

const SHORT_STREAMS: usize = 200;

/// Each record and the end is read in its turn from where the one before left off, and the whole is checked.
pub fn one(cases: &mut Cases) {
    let records: Vec<Record> = (0..cases.random.between(0, 6)).map(|_| drawn(cases.random)).collect();
    let bits: Bits = records.iter().flat_map(Record::bits).collect();
    let bytes = ended(&bits);
    in_turn(cases, &records, &bytes);
    let totals = cases.check(&bytes).answer;
    let values: usize = records.iter().map(|record| record.values.len()).sum();
    let right = totals.answer == 0 && totals.further[..2] == [records.len() as i64, values as i64];
    cases.comparison.demand(
        right,
        Span { bytes: &bytes, start: 0, stop: 0 },
        Call::Check,
        "the stream is not counted right",
    );
    faulty_ends(cases, &bits, &bytes);
    damaged(cases, &bytes);
}

fn in_turn(cases: &mut Cases, records: &[Record], bytes: &[u8]) {
    let mut span = Span { bytes, start: 0, stop: 8 * bytes.len() as u64 };
    for record in records {
        let room = record.values.len();
        let read = Call::Read { entry: record.entry(), kind: record.kind(), room };
        let expected = cases.make(span, &[read]).remove(0);
        cases.comparison.demand(expected.values == record.values, span, read, "the record is not read in its turn");
        span.start = expected.answer.told;
    }
    let read = Call::Read { entry: Entry::Corrections, kind: 2, room: 3 };
    let expected = cases.make(span, &[read, Call::Search { instant: 0 }]).remove(0);
    cases.comparison.demand(expected.answer.further[0] == 1, span, read, "the end is not told");
}

/// Padding with each bit set, further bytes, and every byte less.
fn faulty_ends(cases: &mut Cases, bits: &[bool], bytes: &[u8]) {
    for at in bits.len() + 4..8 * bytes.len() {
        let mut padded = bytes.to_vec();
        place(&mut padded, at, &[true]);
        cases.check(&padded);
    }
    for further in [0x00, 0x01, 0x80, cases.random.number() as u8] {
        let mut longer = bytes.to_vec();
        longer.push(further);
        cases.check(&longer);
        longer.extend([0; 3]);
        cases.check(&longer);
    }
    for length in 0..bytes.len() {
        cases.check(&bytes[..length]);
    }
}

fn damaged(cases: &mut Cases, bytes: &[u8]) {
    for _ in 0..6 {
        let mut turned = bytes.to_vec();
        for _ in 0..cases.random.between(1, 3) {
            let at = cases.random.between(0, 8 * bytes.len() as u64 - 1);
            turned[at as usize / 8] ^= 128 >> (at % 8);
        }
        cases.check(&turned);
    }
}

/// Some short streams, and streams of the longest buffers.
pub fn run(cases: &mut Cases) {
    for _ in 0..SHORT_STREAMS {
        one(cases);
    }
    values_of_no_bits(cases);
    for _ in 0..12 {
        let mut bits = Bits::new();
        while bits.len() < 8 * MOST_BYTES - 4 {
            let one = drawn(cases.random);
            let count = cases.random.between(0, 60);
            bits.extend(with_drawn_list(cases.random, one.heading, count).bits());
        }
        bits.truncate(8 * MOST_BYTES);
        let mut bytes = vec![0; MOST_BYTES];
        place(&mut bytes, 0, &bits);
        cases.check(&bytes);
        bytes.push(0);
        cases.check(&bytes);
    }
}

/// Instants that are all 0 cost no bits, so that the longest buffer holds tens of millions of values.
fn values_of_no_bits(cases: &mut Cases) {
    let heading = chosen(Entry::Unsigned, 5, 0, 1).expect("a valid heading");
    for (count, lost) in [(4_094, 0), (4_094, 1), (4_096, 0), (1, 0)] {
        let record = Record { heading, values: vec![0; count] }.bits();
        let records = (8 * MOST_BYTES - 4) / record.len();
        let mut bytes = ended(&record.repeat(records));
        bytes.truncate(bytes.len() - lost);
        cases.check(&bytes);
    }
}
