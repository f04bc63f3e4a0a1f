//! Lists, rooms, counts and words at and beyond the limits, in short buffers and the longest.

use super::call::Call;
use super::calls::{every_entry, OWN};
use super::cases::Cases;
use super::placed::{ended, Placed};
use super::records::{entry_of, headings, with_drawn_list, Record};
use crate::rooms::{background, MOST_BYTES};
use second::naive::bits::{in_width, Bits};
use second::naive::codes::gamma;
use second::naive::heading::Code;
use second::naive::record::heading_bits;
use second::naive::MOST_VALUES;

const ROOMS: [usize; 7] = [0, 1, 4_095, 4_096, 4_097, 5_000, 10_000];
const PLACES: [u64; 6] = [0, 1, 4_094, 4_095, 4_096, u64::MAX];

pub fn run(cases: &mut Cases) {
    longest_lists(cases);
    counts_too_large(cases);
    endless_zeros(cases);
}

/// Lists of 4,095 and 4,096 values.
fn longest_lists(cases: &mut Cases) {
    for heading in headings() {
        if matches!(heading.code, Code::Rice(k) if ![0, 1, 5, 20, 31].contains(&k)) {
            continue;
        }
        for count in [4_095, 4_096] {
            let record = with_drawn_list(cases.random, heading, count);
            let placed = Placed::among_others(cases.random, &record.bits());
            long_list(cases, &record, &placed);
            cases.check(&ended(&record.bits()));
        }
        let record = with_drawn_list(cases.random, heading, MOST_VALUES as u64);
        in_longest_buffers(cases, &record);
    }
}

fn long_list(cases: &mut Cases, record: &Record, placed: &Placed) {
    let (entry, kind) = (record.entry(), record.kind());
    let mut calls: Vec<Call> = ROOMS.map(|room| Call::Read { entry, kind, room }).to_vec();
    calls.extend(PLACES.map(|place| Call::LookUp { entry, kind, place }));
    calls.extend(every_entry(cases.random, &record.values));
    cases.make(placed.up_to(placed.end), &calls);
    let stop = cases.random.between(placed.start, placed.end);
    let calls = every_entry(cases.random, &record.values);
    cases.make(placed.up_to(stop), &calls);
    cases.make(placed.up_to(placed.end - 1), &calls);
}

/// At both ends of the longest buffer, and of one that is too long wherever the stop is.
fn in_longest_buffers(cases: &mut Cases, record: &Record) {
    let bits = record.bits();
    for bytes in [MOST_BYTES, MOST_BYTES + 1] {
        for start in [5, 8 * bytes - bits.len()] {
            let look = cases.random.number();
            let placed = Placed::at(start, &bits, background(look, bytes, cases.random));
            let read = Call::Read { entry: record.entry(), kind: record.kind(), room: record.values.len() };
            let calls = [vec![read], every_entry(cases.random, &record.values)].concat();
            cases.make(placed.up_to(placed.end), &calls);
        }
    }
}

/// A list of 4,097 values that all stand there is refused all the same, for its count and not for the room.
fn counts_too_large(cases: &mut Cases) {
    for (entry, kind) in OWN {
        for count in [4_097, 4_098, 10_000, 100_000] {
            let bits =
                [in_width(1, 4), in_width(kind.into(), 2), gamma(count + 1), vec![true; count as usize]].concat();
            let placed = Placed::among_others(cases.random, &bits);
            let calls: Vec<Call> = ROOMS.map(|room| Call::Read { entry, kind, room }).to_vec();
            cases.make(placed.up_to(placed.end), &calls);
            cases.make(placed.up_to(placed.start + 30), &calls);
            cases.make(placed.up_to(placed.end), &PLACES.map(|place| Call::LookUp { entry, kind, place }));
            cases.check(&ended(&bits));
        }
    }
}

/// Rice words whose zeros fill the longest buffer, at their top quotient where it fits in.
fn endless_zeros(cases: &mut Cases) {
    for heading in headings() {
        let Code::Rice(k @ 0..=16) = heading.code else {
            continue;
        };
        let begun = heading_bits(heading, 1);
        let top = ((1u64 << 32) - 2) >> k;
        let room = (8 * MOST_BYTES - begun.len()) as u64;
        for zeros in [room, room - 1, top - 1, top, top + 1].into_iter().filter(|&zeros| zeros <= room) {
            let mut bits: Bits = [begun.clone(), vec![false; zeros as usize], vec![true; k as usize + 1]].concat();
            bits.truncate(8 * MOST_BYTES);
            let placed = Placed::at(0, &bits, vec![0; MOST_BYTES]);
            let (kind, entry) = (heading.kind.number(), entry_of(heading.kind.number()));
            let read = Call::Read { entry, kind, room: 1 };
            cases.make(placed.up_to(placed.end), &[read, Call::LookUp { entry, kind, place: 0 }]);
            cases.make(placed.up_to(8 * MOST_BYTES as u64), &[read]);
            cases.check(&placed.bytes);
        }
    }
}
