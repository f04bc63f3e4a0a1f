//! Document 01's "Numbers to hold it against", as far as they concern reading, and the orders its text fixes.

use super::fields::Refusal;
use super::readers::{check, look_up, read, search, Read, Span, Totals};
use super::words::first;
use crate::naive::bits::{of_text, place};
use crate::naive::codes::{WordCode, LARGEST_WORD};
use crate::naive::heading::{Code, Entry, Heading};
use crate::naive::kinds::Kind;
use crate::naive::record;

/// Bytes that hold these bits from bit 0 on and ones behind them, with the number of the bits as the stop.
fn held(text: &str) -> (Vec<u8>, u64) {
    let bits = of_text(text);
    let mut bytes = vec![0xFF; bits.len().div_ceil(8)];
    place(&mut bytes, 0, &bits);
    (bytes, bits.len() as u64)
}

fn word(code: WordCode, text: &str) -> Result<(u64, usize), u32> {
    first(code, &of_text(text))
}

fn refused<T>(answer: u32, told: u64) -> Result<T, Refusal> {
    Err(Refusal { answer, told })
}

fn read_all(text: &str, entry: Entry, kind: u32, room: usize) -> Result<Read, Refusal> {
    let (bytes, stop) = held(text);
    read(Span { bytes: &bytes, start: 0, stop }, entry, kind, room)
}

fn list(bytes: &[u8], code: Code, kind: Kind, values: &[i64], next: u64) {
    let span = Span { bytes, start: 0, stop: 8 * bytes.len() as u64 };
    let record = Read::Record { heading: Heading { code, kind }, values: values.to_vec(), next };
    assert_eq!(read(span, Entry::Unsigned, kind.number(), values.len()), Ok(record));
    assert_eq!(read(Span { start: next, ..span }, Entry::Unsigned, 0, 0), Ok(Read::End { next: next + 4 }));
    assert_eq!(check(bytes), Ok(Totals { records: 1, values: values.len() as u64 }));
}

#[test]
fn words() {
    let words = [
        (WordCode::Gamma, 1, "1"),
        (WordCode::Gamma, 9, "0001001"),
        (WordCode::Delta, 1, "11"),
        (WordCode::Delta, 14, "001001110"),
        (WordCode::Rice(4), 83, "0000010010"),
        (WordCode::Rice(0), 1, "1"),
        (WordCode::VariableByte, 127, "01111111"),
        (WordCode::VariableByte, 128, "10000001 00000000"),
        (WordCode::VariableByte, 65_536, "10000100 10000000 00000000"),
    ];
    for (code, value, text) in words {
        assert_eq!(word(code, text), Ok((value, of_text(text).len())));
    }
    let lengths =
        [(WordCode::Gamma, 63), (WordCode::Delta, 43), (WordCode::Rice(31), 33), (WordCode::VariableByte, 40)];
    for (code, length) in lengths {
        assert_eq!(first(code, &code.image(LARGEST_WORD)), Ok((LARGEST_WORD, length)));
    }
}

#[test]
fn bad_and_cut_gamma_words() {
    assert_eq!(word(WordCode::Gamma, &"0".repeat(32)), Err(9));
    assert_eq!(word(WordCode::Gamma, &"0".repeat(31)), Err(6));
    assert_eq!(word(WordCode::Gamma, &format!("{}1{}", "0".repeat(31), "1".repeat(30))), Err(6));
    assert_eq!(word(WordCode::Gamma, ""), Err(6));
}

#[test]
fn bad_and_cut_delta_words() {
    assert_eq!(word(WordCode::Delta, "10"), Err(9));
    assert_eq!(word(WordCode::Delta, "1"), Err(6));
    assert_eq!(word(WordCode::Delta, "000000"), Err(9));
    assert_eq!(word(WordCode::Delta, "00000100000"), Err(6));
    assert_eq!(word(WordCode::Delta, "000001000000"), Err(9));
    for digit in 6..11 {
        let mut length = of_text("00000100000");
        length[digit] = true;
        assert_eq!(first(WordCode::Delta, &length[..=digit]), Err(9));
        assert_eq!(first(WordCode::Delta, &length[..digit]), Err(6));
    }
    assert_eq!(word(WordCode::Delta, "010"), Err(6));
    assert_eq!(word(WordCode::Delta, "0100"), Err(9));
}

#[test]
fn bad_and_cut_rice_words() {
    assert_eq!(word(WordCode::Rice(31), "00"), Err(9));
    assert_eq!(word(WordCode::Rice(31), "0"), Err(6));
    assert_eq!(word(WordCode::Rice(31), &format!("01{}", "1".repeat(31))), Err(9));
    assert_eq!(word(WordCode::Rice(31), &format!("01{}", "1".repeat(30))), Err(6));
    assert_eq!(word(WordCode::Rice(30), "0000"), Err(9));
    assert_eq!(word(WordCode::Rice(30), "000"), Err(6));
}

#[test]
fn bad_and_cut_variable_byte_words() {
    for bad in ["00000000", "10000000", "10000000 1", "10010000 10000000 10000000 1"] {
        assert_eq!(word(WordCode::VariableByte, bad), Err(9));
    }
    assert_eq!(word(WordCode::VariableByte, "10001111 11111111 11111111 11111111 1"), Err(9));
    for cut in ["1000000", "0", "10010000 10000000 10000000", "10001111 10000000 10000000 1", "10000001"] {
        assert_eq!(word(WordCode::VariableByte, cut), Err(6));
    }
    assert_eq!(word(WordCode::VariableByte, "10000001 10000000 00000000"), Ok((16_384, 24)));
}

#[test]
fn streams_are_read_back() {
    list(&[0x14, 0x86, 0x94, 0x00], Code::Gamma, Kind::Instants, &[5, 5, 9], 22);
    list(&[0x15, 0x98, 0xA0], Code::Gamma, Kind::Instants, &[5, 9], 19);
    list(&[0x54, 0x84, 0xA5, 0x00], Code::Interpolative, Kind::Instants, &[5, 5, 9], 27);
    list(&[0x12, 0x00], Code::Gamma, Kind::Plain, &[], 7);
    assert_eq!(check(&[0x00]), Ok(Totals { records: 0, values: 0 }));
}

#[test]
fn corrections_are_read_back() {
    let heading = Heading { code: Code::Gamma, kind: Kind::Corrections };
    let values = vec![3, -3, -1, 2_147_483_647, -2_147_483_647];
    let image = record::bits(heading, &values);
    let mut bytes = vec![0; 64];
    place(&mut bytes, 5, &image);
    let span = Span { bytes: &bytes, start: 5, stop: 512 };
    let next = 5 + image.len() as u64;
    assert_eq!(look_up(span, Entry::Corrections, 2, 4), Ok(-2_147_483_647));
    assert_eq!(look_up(span, Entry::Corrections, 2, 5), refused(13, 0));
    assert_eq!(look_up(span, Entry::Unsigned, 1, 0), refused(7, 9));
    assert_eq!(read(span, Entry::Corrections, 2, 4), refused(5, 11));
    assert_eq!(read(span, Entry::Corrections, 2, 5), Ok(Read::Record { heading, values, next }));
}

#[test]
fn padding_and_ends() {
    assert_eq!(check(&[]), refused(6, 0));
    assert_eq!(check(&[0x00, 0x01]), refused(11, 4));
    assert_eq!(check(&[0x00, 0x00]), refused(11, 4));
    assert_eq!(check(&[0x01]), refused(11, 4));
    assert_eq!(check(&[0x12]), refused(6, 7));
    assert_eq!(check(&[0x12, 0x08]), refused(11, 11));
    assert_eq!(check(&[0x60]), refused(7, 0));
    assert_eq!(check(&[0x50]), refused(7, 4));
    assert_eq!(check(&vec![0; 65_537]), refused(12, 0));
}

#[test]
fn positions() {
    for (start, stop) in [(0, 9), (5, 4), (9, 9), (u64::MAX, u64::MAX), (0, u64::MAX), (u64::MAX, 8)] {
        assert_eq!(read(Span { bytes: &[0x12], start, stop }, Entry::Unsigned, 9, 0), refused(12, 0));
    }
    let long = vec![0; 65_537];
    assert_eq!(search(Span { bytes: &long, start: 0, stop: 0 }, 0), refused(12, 0));
    assert_eq!(read(Span { bytes: &[0x12], start: 8, stop: 8 }, Entry::Unsigned, 0, 0), refused(6, 8));
    assert_eq!(read(Span { bytes: &[], start: 0, stop: 0 }, Entry::Corrections, 2, 0), refused(6, 0));
}

#[test]
fn asked_kinds_come_before_the_bits() {
    for (entry, kind) in
        [(Entry::Unsigned, 2), (Entry::Unsigned, 3), (Entry::Corrections, 0), (Entry::Corrections, 258)]
    {
        assert_eq!(read(Span { bytes: &[0xFF], start: 4, stop: 4 }, entry, kind, 0), refused(7, 0));
        assert_eq!(look_up(Span { bytes: &[0x00], start: 4, stop: 8 }, entry, kind, 0), refused(7, 0));
    }
}

#[test]
fn end_marks() {
    let span = Span { bytes: &[0xF0, 0xFF], start: 4, stop: 8 };
    assert_eq!(read(span, Entry::Corrections, 2, 3), Ok(Read::End { next: 8 }));
    assert_eq!(look_up(span, Entry::Unsigned, 0, 0), refused(7, 4));
    assert_eq!(search(span, 7), refused(7, 4));
}

#[test]
fn fixed_fields_are_cut_before_they_are_judged() {
    let plain = |text| read_all(text, Entry::Unsigned, 0, 9);
    assert_eq!(plain("111"), refused(6, 0));
    assert_eq!(plain("0110"), refused(7, 0));
    assert_eq!(plain("0001 1"), refused(6, 4));
    assert_eq!(plain("0001 11"), refused(7, 4));
    assert_eq!(plain("0001 01"), refused(7, 4));
    assert_eq!(plain("0101 00"), refused(7, 4));
    assert_eq!(plain("0011 00 1111"), refused(6, 6));
    assert_eq!(plain("0011 00 11111"), refused(6, 11));
}

#[test]
fn counts() {
    let count = |number: u64, room| {
        let text: String = WordCode::Gamma.image(number + 1).iter().map(|&bit| if bit { '1' } else { '0' }).collect();
        read_all(&format!("0001 00 {text} 0"), Entry::Unsigned, 0, room)
    };
    assert_eq!(count(4_097, 9), refused(8, 6));
    assert_eq!(count(4_294_967_294, 5_000), refused(8, 6));
    assert_eq!(count(4_096, 4_095), refused(5, 6));
    assert_eq!(count(4_096, 4_096), refused(6, 31));
    assert_eq!(count(1, 0), refused(5, 6));
    let zeros = |number| read_all(&format!("0001 00 {}", "0".repeat(number)), Entry::Unsigned, 0, 0);
    assert_eq!(zeros(31), refused(6, 6));
    assert_eq!(zeros(32), refused(9, 6));
}

#[test]
fn values_are_judged_as_they_are_formed() {
    let corrections = |text| read_all(text, Entry::Corrections, 2, 9);
    assert_eq!(corrections("0001 10 011 010 1 1"), refused(10, 12));
    assert_eq!(corrections("0010 10 011 0100"), refused(9, 9));
    let largest = "0".repeat(31) + &"1".repeat(32);
    let instants = |text: &str| read_all(text, Entry::Unsigned, 1, 9);
    assert_eq!(instants(&format!("0001 01 011 {largest} 010")), refused(10, 72));
    assert_eq!(instants(&format!("0001 01 011 {largest} {largest}")), refused(10, 72));
    assert!(instants(&format!("0001 01 011 {largest} 1")).is_ok());
}

#[test]
fn offsets() {
    // Two instants with t2 = 2 have V = 3, with t2 = 4294967294 they have V = 4294967295.
    let instants = |text: &str| read_all(text, Entry::Unsigned, 1, 9);
    assert_eq!(instants("0101 01 011 01011 1"), refused(6, 14));
    assert_eq!(instants("0101 01 011 01011 11"), refused(9, 14));
    assert!(instants("0101 01 011 01011 10").is_ok());
    let last: String = WordCode::Delta.image(LARGEST_WORD).iter().map(|&bit| if bit { '1' } else { '0' }).collect();
    assert_eq!(instants(&format!("0101 01 011 {last} {}", "1".repeat(31))), refused(6, 52));
    assert_eq!(instants(&format!("0101 01 011 {last} {}", "1".repeat(32))), refused(9, 52));
    assert!(instants(&format!("0101 01 011 {last} {}0", "1".repeat(31))).is_ok());
}

#[test]
fn searches() {
    let span = Span { bytes: &[0x14, 0x86, 0x94], start: 0, stop: 22 };
    let below = [0, 5, 6, 9, 10, u32::MAX].map(|instant| search(span, instant).expect("a list of instants"));
    assert_eq!(below, [0, 0, 2, 2, 3, 3]);
    assert_eq!(search(Span { bytes: &[0x12], start: 0, stop: 7 }, 0), refused(7, 4));
}

#[test]
fn values_of_no_bits_are_counted() {
    let record = record::bits(Heading { code: Code::Interpolative, kind: Kind::Instants }, &[0; 4_094]);
    let records = (8 * 65_536 - 4) / record.len();
    let mut bytes = vec![0; (records * record.len() + 4).div_ceil(8)];
    place(&mut bytes, 0, &record.repeat(records));
    let totals = Totals { records: records as u64, values: 4_094 * records as u64 };
    assert!(totals.values > 69_000_000);
    assert_eq!(check(&bytes), Ok(totals));
}
