//! Records with bits turned, cut off or replaced, which may by chance be other records.

use super::calls::every_entry;
use super::cases::Cases;
use super::placed::{ended, Placed};
use super::records::{headings, Record};
use second::naive::bits::Bits;
use second::naive::record::heading_bits;
use second::random::Random;

/// Some ways in which this record can be damaged.
pub fn one(cases: &mut Cases, record: &Record) {
    let bits = record.bits();
    for damaged in [with_bits_turned(cases.random, &bits), with_a_bit_less_or_more(cases.random, &bits)] {
        read_and_checked(cases, &damaged, &record.values);
    }
    let behind = behind_a_heading(cases.random);
    read_and_checked(cases, &behind, &record.values);
}

fn with_bits_turned(random: &mut Random, bits: &[bool]) -> Bits {
    let mut turned = bits.to_vec();
    for _ in 0..random.between(1, 3) {
        let at = random.between(0, bits.len() as u64 - 1) as usize;
        turned[at] = !turned[at];
    }
    turned
}

fn with_a_bit_less_or_more(random: &mut Random, bits: &[bool]) -> Bits {
    let mut moved = bits.to_vec();
    let at = random.between(0, bits.len() as u64 - 1) as usize;
    match random.once_in(2) {
        true => drop(moved.remove(at)),
        false => moved.insert(at, random.once_in(2)),
    }
    moved
}

/// Random bits, mostly zeros or mostly ones or neither, behind a heading without a fault.
fn behind_a_heading(random: &mut Random) -> Bits {
    let heading = random.one_of(&headings());
    let count = random.one_of(&[0, 1, 2, 3, 5, 12, 40]);
    let mut bits = heading_bits(heading, count);
    let (ones, of) = random.one_of(&[(1, 12), (1, 3), (1, 2), (2, 3), (11, 12)]);
    bits.extend((0..random.between(0, 250)).map(|_| random.between(1, of) <= ones));
    bits
}

fn read_and_checked(cases: &mut Cases, bits: &[bool], values: &[i64]) {
    let placed = Placed::among_others(cases.random, bits);
    let drawn = cases.random.between(placed.start, placed.end);
    for stop in [placed.end, 8 * placed.bytes.len() as u64, drawn] {
        let calls = every_entry(cases.random, values);
        cases.make(placed.up_to(stop), &calls);
    }
    cases.check(&ended(bits));
    cases.check(&placed.bytes);
}
