//! Document 01's "Numbers to hold it against", as far as they concern writing, and the orders its text fixes.

use super::bits::Bits;
use super::codes::{delta, gamma, rice, rice_length, variable_byte};
use super::heading::{chosen, Code, Entry, Heading};
use super::interpolative::fewest_bits;
use super::kinds::Kind;
use super::record;
use super::writer::{write, write_end, Outcome, Request};

const LARGEST: u64 = 4_294_967_295;

fn shown(bits: Bits) -> String {
    bits.iter().map(|&bit| if bit { '1' } else { '0' }).collect()
}

fn unsigned(code: u32, parameter: u32, kind: u32, values: &[i64]) -> Request {
    Request { entry: Entry::Unsigned, code, parameter, kind, values: values.to_vec() }
}

fn corrections(code: u32, values: &[i64]) -> Request {
    Request { entry: Entry::Corrections, code, parameter: 0, kind: 2, values: values.to_vec() }
}

/// The bytes of a stream of these records, written into ones so that every zero must be written too.
fn stream(requests: &[Request]) -> Vec<u8> {
    let mut at = Outcome { answer: 0, told: 0, bytes: vec![0xFF; 64] };
    for request in requests {
        at = write(&at.bytes, at.told, request);
        assert_eq!(at.answer, 0);
    }
    at = write_end(&at.bytes, at.told);
    assert_eq!((at.answer, at.told % 8), (0, 0));
    let bytes = at.told as usize / 8;
    assert!(at.bytes[bytes..].iter().all(|&byte| byte == 0xFF));
    at.bytes[..bytes].to_vec()
}

fn answer(bytes: &[u8], start: u64, request: &Request) -> (u32, u64) {
    let outcome = write(bytes, start, request);
    if outcome.answer != 0 {
        assert_eq!(outcome.bytes, bytes);
    }
    (outcome.answer, outcome.told)
}

#[test]
fn gamma_words() {
    assert_eq!(shown(gamma(1)), "1");
    assert_eq!(shown(gamma(9)), "0001001");
    assert_eq!(gamma(LARGEST).len(), 63);
}

#[test]
fn delta_words() {
    assert_eq!(shown(delta(1)), "11");
    assert_eq!(shown(delta(14)), "001001110");
    assert_eq!(delta(LARGEST).len(), 43);
}

#[test]
fn rice_words() {
    assert_eq!(shown(rice(4, 83)), "0000010010");
    assert_eq!(shown(rice(0, 1)), "1");
    assert_eq!(rice(31, LARGEST).len(), 33);
    assert_eq!(shown(rice(31, LARGEST)), format!("01{}0", "1".repeat(30)));
}

#[test]
fn rice_words_are_as_long_as_counted() {
    for k in 0..=31 {
        for word in (1..300).chain([65_536, 65_537]).chain(LARGEST >> (31 - k)..=(LARGEST >> (31 - k)) + 1) {
            let word = word.min(LARGEST);
            assert_eq!(rice(k, word).len() as u64, rice_length(k, word));
        }
    }
}

#[test]
fn variable_byte_words() {
    assert_eq!(shown(variable_byte(127)), "01111111");
    assert_eq!(shown(variable_byte(128)), "1000000100000000");
    assert_eq!(shown(variable_byte(65_536)), "100001001000000000000000");
    assert_eq!(variable_byte(LARGEST).len(), 40);
}

#[test]
fn corrections_as_words() {
    assert_eq!(Kind::Corrections.words(&[3, -3, -1]), [6, 7, 3]);
    assert_eq!(Kind::Corrections.words(&[2_147_483_647, -2_147_483_647]), [4_294_967_294, LARGEST]);
    assert_eq!(answer(&[0; 8], 0, &corrections(1, &[0])), (2, 0));
    assert_eq!(answer(&[0; 8], 0, &corrections(1, &[1, i64::from(i32::MIN)])), (2, 1));
}

#[test]
fn instants_as_words() {
    assert_eq!(Kind::Instants.words(&[5, 5, 9]), [6, 1, 5]);
    assert_eq!(Kind::Instants.words(&[0, 4_294_967_294]), [1, LARGEST]);
}

#[test]
fn streams() {
    assert_eq!(stream(&[unsigned(1, 0, 1, &[5, 5, 9])]), [0x14, 0x86, 0x94, 0x00]);
    assert_eq!(stream(&[unsigned(1, 0, 1, &[5, 9])]), [0x15, 0x98, 0xA0]);
    assert_eq!(stream(&[unsigned(5, 0, 1, &[5, 5, 9])]), [0x54, 0x84, 0xA5, 0x00]);
    assert_eq!(stream(&[]), [0x00]);
    assert_eq!(stream(&[unsigned(1, 0, 0, &[])]), [0x12, 0x00]);
}

#[test]
fn a_parameter_is_rice_s_alone() {
    let bits = |code, parameter| {
        let heading = chosen(Entry::Unsigned, code, parameter, 1).expect("a valid heading");
        shown(record::bits(heading, &[]))
    };
    assert_eq!(bits(1, 200), "0001011");
    assert_eq!(bits(3, 31), "001101111111");
    assert_eq!(answer(&[0; 8], 0, &unsigned(3, 32, 1, &[])), (4, 0));
    assert_eq!(answer(&[0; 8], 0, &unsigned(1, u32::MAX, 1, &[])), (0, 7));
}

#[test]
fn interpolative_bodies() {
    let body = |instants: &[i64]| {
        let heading = Heading { code: Code::Interpolative, kind: Kind::Instants };
        let skipped = record::heading_bits(heading, instants.len()).len();
        shown(record::bits(heading, instants)[skipped..].to_vec())
    };
    assert_eq!(body(&[]), "");
    assert_eq!(body(&[13]), "001001110");
    assert_eq!(body(&[0, 0, 0, 0, 0, 0, 0]), "11");
    assert_eq!(body(&[5, 5, 9]), ["001001010", "0101", "000"].concat());
    assert_eq!(body(&[4_294_967_294, 4_294_967_294]).len(), 43 + 32);
}

#[test]
fn widths_of_offsets() {
    let widths = [(1, 0), (2, 1), (3, 2), (4, 2), (5, 3), (2_147_483_648, 31), (4_294_967_295, 32)];
    for (possible, bits) in widths {
        assert_eq!(fewest_bits(possible), bits);
    }
}

#[test]
fn limits_of_lists_and_instants() {
    let buffer = [0; 65_536];
    for code in 1..=5 {
        assert_eq!(answer(&buffer, 0, &unsigned(code, 0, 1, &[7; 4_096])).0, 0);
        assert_eq!(answer(&buffer, 0, &unsigned(code, 0, 1, &[7; 4_097])), (1, 0));
        assert_eq!(answer(&buffer, 0, &unsigned(code, 31, 1, &[4_294_967_294])).0, 0);
        assert_eq!(answer(&buffer, 0, &unsigned(code, 31, 1, &[4_294_967_295])), (2, 0));
    }
}

#[test]
fn huge_words_are_counted_and_refused() {
    let largest = [LARGEST as i64; 4_096];
    let heading = chosen(Entry::Unsigned, 3, 0, 0).expect("a valid heading");
    let before = record::heading_bits(heading, 4_096).len() as u64;
    assert_eq!(record::length(heading, &largest) - before, 17_592_186_040_320);
    assert_eq!(answer(&[0; 65_536], 0, &unsigned(3, 0, 0, &largest)), (5, 0));
}

#[test]
fn order_of_refusals() {
    let faulty = [vec![3, 1, 4_294_967_295], vec![0; 4_094]].concat();
    assert_eq!(answer(&[0; 65_537], 0, &unsigned(0, 0, 1, &faulty)), (12, 0));
    assert_eq!(answer(&[], 1, &unsigned(0, 0, 1, &faulty)), (12, 0));
    assert_eq!(answer(&[0; 65_536], u64::MAX, &unsigned(1, 0, 1, &[])), (12, 0));
    assert_eq!(answer(&[], 0, &unsigned(0, 0, 1, &faulty)), (4, 0));
    assert_eq!(answer(&[], 0, &unsigned(1, 0, 1, &faulty)), (1, 0));
    assert_eq!(answer(&[], 0, &unsigned(1, 0, 1, &faulty[..3])), (3, 1));
    assert_eq!(answer(&[], 0, &unsigned(1, 0, 1, &[3, 4_294_967_295, 1])), (2, 1));
    assert_eq!(answer(&[], 0, &unsigned(1, 0, 1, &[])), (5, 0));
}

#[test]
fn kinds_belong_to_their_entries() {
    for kind in [0, 1, 2, 3, u32::MAX] {
        for code in 0..=6 {
            let may = |entry| chosen(entry, code, 0, kind).is_some();
            assert_eq!(may(Entry::Unsigned), matches!((code, kind), (1..=4, 0 | 1) | (5, 1)));
            assert_eq!(may(Entry::Corrections), matches!((code, kind), (1..=4, 2)));
        }
    }
}

#[test]
fn ends_fill_their_byte() {
    for start in 0..=12 {
        let outcome = write_end(&[0xFF; 2], start);
        let after = if start <= 4 { 8 } else { 16 };
        let zeros = (0xFFFFu16 >> start) & !(0xFFFFu32 >> after) as u16;
        assert_eq!((outcome.answer, outcome.told), (0, after));
        assert_eq!(outcome.bytes, (!zeros).to_be_bytes());
    }
    for start in 13..=16 {
        assert_eq!(write_end(&[0xFF; 2], start), Outcome { answer: 5, told: 0, bytes: vec![0xFF; 2] });
    }
    for start in [17, u64::MAX] {
        assert_eq!(write_end(&[0xFF; 2], start), Outcome { answer: 12, told: 0, bytes: vec![0xFF; 2] });
    }
    assert_eq!(write_end(&[1; 65_537], 0).answer, 12);
}
