//! The plain readers against the plain writer, and against the worked numbers of the rules.

use super::heading::{Code, Kind};
use super::writer::{body_bits, delta_bits, for_each_offset, heading_bits};
use super::*;
use crate::lists::bursts;
use crate::streams::of_record;

const UNTOUCHED: u32 = 0xA5A5_A5A5;

const HEADINGS: [[u32; 3]; 11] = [
    [1, 0, 0],
    [2, 0, 0],
    [3, 12, 0],
    [3, 31, 0],
    [4, 0, 0],
    [1, 0, 1],
    [2, 0, 1],
    [3, 6, 1],
    [3, 31, 1],
    [4, 0, 1],
    [5, 0, 1],
];

/// Every heading with lists that both kinds can hold, and that are short enough for a buffer by Rice too.
fn records() -> impl Iterator<Item = ([u32; 3], Vec<u32>)> {
    let lists = [vec![], vec![1], vec![1, 1, 1, 1], vec![5, 5, 9], vec![65_535, 65_536, 300_000], bursts(3, 100)];
    HEADINGS.into_iter().flat_map(move |heading| lists.clone().map(|list| (heading, list)))
}

fn refused<T>(answer: u32, told: u64) -> Result<T, Refusal> {
    Err(Refusal { answer, told })
}

fn bytes_of(bits: &str) -> Vec<u8> {
    let mut bytes = vec![0; bits.len().div_ceil(8)];
    for (at, _) in bits.match_indices('1') {
        bytes[at / 8] |= 0x80 >> (at % 8);
    }
    bytes
}

/// Reads a list of kind 0 or 1 from bits up to the last of them.
fn read_bits(bits: &str, kind: u32) -> Result<Vec<u32>, Refusal> {
    let mut list = [UNTOUCHED; 8];
    match read(&bytes_of(bits), 0, bits.len() as u64, kind, &mut list) {
        Ok(Found::Record { count, .. }) => Ok(list[..count as usize].to_vec()),
        Ok(Found::End { .. }) => panic!("an end mark instead of a record"),
        Err(refusal) => {
            assert_eq!(list, [UNTOUCHED; 8]);
            Err(refusal)
        }
    }
}

/// Reads the one word of a plain list; a refusal is told from the word's first bit.
fn word(code: u32, k: u32, bits: &str) -> Result<u32, Refusal> {
    let parameter = if code == 3 { format!("{k:05b}") } else { String::new() };
    let heading = format!("{code:04b}00{parameter}010");
    match read_bits(&format!("{heading}{bits}"), 0) {
        Ok(list) => Ok(list[0]),
        Err(Refusal { answer, told }) => refused(answer, told - heading.len() as u64),
    }
}

#[test]
fn words_are_read_as_the_rules_write_them_and_cut_before_their_last_bit() {
    let cases: [(u32, u32, &str, u32); 13] = [
        (1, 0, "1", 1),
        (1, 0, "0001001", 9),
        (1, 0, "000000000000000000000000000000011111111111111111111111111111111", 4_294_967_295),
        (2, 0, "11", 1),
        (2, 0, "001001110", 14),
        (2, 0, "0000010000011111111111111111111111111111111", 4_294_967_295),
        (3, 4, "0000010010", 83),
        (3, 0, "1", 1),
        (3, 31, "011111111111111111111111111111110", 4_294_967_295),
        (4, 0, "01111111", 127),
        (4, 0, "1000000100000000", 128),
        (4, 0, "100001001000000000000000", 65_536),
        (4, 0, "1000111111111111111111111111111101111111", 4_294_967_295),
    ];
    for (code, k, bits, value) in cases {
        assert_eq!(word(code, k, bits), Ok(value));
        assert_eq!(word(code, k, &format!("{bits}{}", "1".repeat(100))), Ok(value));
        for cut in 0..bits.len() {
            assert_eq!(word(code, k, &bits[..cut]), refused(6, 0), "code {code}, {}", &bits[..cut]);
        }
    }
}

#[test]
fn bad_words_are_bad_as_soon_as_they_show_it() {
    let zeros = "0".repeat(32);
    let ones = "1".repeat(31);
    let cases = [
        (1, 0, zeros.clone()),
        (2, 0, "10".to_owned()),
        (2, 0, "000000".to_owned()),
        (2, 0, "0000011".to_owned()),
        (2, 0, "00000100001".to_owned()),
        (2, 0, "000001000000".to_owned()),
        (3, 31, "00".to_owned()),
        (3, 31, format!("01{ones}")),
        (3, 27, zeros),
        (4, 0, "00000000".to_owned()),
        (4, 0, "10000000".to_owned()),
        (4, 0, "1001000010000000100000001".to_owned()),
        (4, 0, "100000011000000010000000100000001".to_owned()),
    ];
    for (code, k, bits) in cases {
        assert_eq!(word(code, k, &bits), refused(9, 0), "code {code}, {bits}");
        assert_eq!(word(code, k, &bits[..bits.len() - 1]), refused(6, 0), "code {code}, {bits} before its last bit");
        assert_eq!(word(code, k, &format!("{bits}{}", "1".repeat(100))), refused(9, 0), "code {code}, {bits} and ones");
    }
}

#[test]
fn streams_are_read_as_the_rules_write_them() {
    type Case<'a> = (&'a [u8], [u32; 3], &'a [u32], u64);
    let cases: [Case; 4] = [
        (&[0x14, 0x86, 0x94, 0x00], [1, 0, 1], &[5, 5, 9], 22),
        (&[0x15, 0x98, 0xA0], [1, 0, 1], &[5, 9], 19),
        (&[0x54, 0x84, 0xA5, 0x00], [5, 0, 1], &[5, 5, 9], 27),
        (&[0x12, 0x00], [1, 0, 0], &[], 7),
    ];
    for (stream, heading, values, next) in cases {
        let mut list = [UNTOUCHED; 4];
        let count = values.len() as u32;
        let stop = 8 * stream.len() as u64;
        assert_eq!(read(stream, 0, stop, heading[2], &mut list), Ok(Found::Record { heading, count, next }));
        assert_eq!(list[..values.len()], *values);
        assert!(list[values.len()..].iter().all(|&value| value == UNTOUCHED));
        assert_eq!(read(stream, next, stop, heading[2], &mut list), Ok(Found::End { next: next + 4 }));
    }
}

#[test]
fn what_is_written_is_read_at_every_start_and_before_any_bits() {
    for (heading, values) in records() {
        for (start, background) in (0..8).flat_map(|start| [(start, 0x00), (start, 0xFF)]) {
            let mut buffer = vec![background; MOST_BYTES];
            let next = write(&mut buffer, start, heading, &values).expect("a list without faults");
            let mut list = vec![UNTOUCHED; values.len()];
            let count = values.len() as u32;
            for stop in [next, next + 1, 8 * MOST_BYTES as u64] {
                let found = read(&buffer, start, stop, heading[2], &mut list);
                assert_eq!(found, Ok(Found::Record { heading, count, next }));
                assert_eq!(list, values);
            }
        }
    }
}

/// The bits where a record's fields start.
fn field_starts([code, parameter, kind]: [u32; 3], values: &[u32]) -> Vec<u64> {
    let code = Code::numbered(code, parameter).expect("a code");
    let kind = Kind::numbered(kind).expect("a kind");
    let body = heading_bits(code, values.len());
    let mut starts = vec![0, 4, 6];
    if let Code::Rice(_) = code {
        starts.push(11);
    }
    match (code, values.split_last()) {
        (Code::Interpolative, Some((&last, others))) => {
            let mut at = body + delta_bits(last + 1);
            starts.push(body);
            for_each_offset(others, 0, last, &mut |_, width| {
                starts.push(at);
                at += u64::from(width);
            });
        }
        _ => starts.extend((0..values.len()).map(|place| body + body_bits(code, kind, &values[..place]))),
    }
    starts
}

#[test]
fn a_record_is_cut_short_at_the_field_that_holds_the_stop() {
    for (heading, values) in records() {
        let mut buffer = vec![0xFF; MOST_BYTES];
        let next = write(&mut buffer, 0, heading, &values).expect("a list without faults");
        let starts = field_starts(heading, &values);
        let mut list = vec![UNTOUCHED; values.len()];
        for stop in 0..next {
            let told = *starts.iter().rfind(|&&start| start <= stop).expect("the code starts at 0");
            assert_eq!(read(&buffer, 0, stop, heading[2], &mut list), refused(6, told), "{heading:?}, stop {stop}");
        }
        assert!(list.iter().all(|&value| value == UNTOUCHED));
    }
}

#[test]
fn refusals_come_in_the_order_of_the_rules() {
    let too_long = vec![0; MOST_BYTES + 1];
    type Case<'a> = (&'a [u8], [u64; 2], u32, u32, u64);
    let cases: [Case; 14] = [
        (&too_long, [0, 0], 9, 12, 0),
        (&[0x14], [1, 0], 9, 12, 0),
        (&[0x14], [0, 9], 9, 12, 0),
        (&[0x14], [u64::MAX, u64::MAX], 9, 12, 0),
        (&[], [0, 0], 2, 7, 0),
        (&[], [0, 0], 1, 6, 0),
        (&[0x0F, 0xC0], [4, 9], 1, 7, 4),
        (&[0x14], [0, 6], 0, 7, 4),
        (&[0x1C], [0, 6], 1, 7, 4),
        (&[0x50], [0, 6], 0, 7, 4),
        (&[0x14, 0x00, 0x10, 0x04], [0, 32], 1, 6, 6),
        (&[0x14, 0x00, 0x20, 0x04], [0, 31], 1, 8, 6),
        (&[0x14, 0x00, 0x20, 0x02], [0, 31], 1, 5, 6),
        (&[0x14, 0x80], [0, 11], 1, 5, 6),
    ];
    for (buffer, [start, stop], kind, answer, told) in cases {
        let mut list = [UNTOUCHED; 2];
        assert_eq!(read(buffer, start, stop, kind, &mut list), refused(answer, told), "{answer} at {told}");
        assert_eq!(list, [UNTOUCHED; 2]);
    }
}

#[test]
fn a_value_outside_its_kind_is_told_at_its_word() {
    let largest = format!("{}{}", "0".repeat(31), "1".repeat(32));
    assert_eq!(read_bits(&format!("000101011{largest}1"), 1), Ok(vec![4_294_967_294, 4_294_967_294]));
    assert_eq!(read_bits(&format!("000101011{largest}010"), 1), refused(10, 9 + 63));
    assert_eq!(check(&bytes_of("0001100100110000")), Ok(Totals { records: 1, values: 1 }));
    assert_eq!(check(&bytes_of("0001100101000000")), refused(10, 9));
}

#[test]
fn an_offset_that_is_not_possible_is_bad() {
    // The last of three instants is 2, so an offset has two bits, and 3 is not possible.
    let begin = "0101010010001011";
    assert_eq!(read_bits(&format!("{begin}0010"), 1), Ok(vec![0, 2, 2]));
    assert_eq!(read_bits(&format!("{begin}11"), 1), refused(9, 16));
    assert_eq!(read_bits(&format!("{begin}0011"), 1), refused(9, 18));
    assert_eq!(read_bits(&format!("{begin}001"), 1), refused(6, 18));
}

#[test]
fn a_check_counts_the_whole_stream() {
    assert_eq!(check(&[]), refused(6, 0));
    assert_eq!(check(&[0x00]), Ok(Totals { records: 0, values: 0 }));
    assert_eq!(check(&[0x00, 0x01]), refused(11, 4));
    assert_eq!(check(&[0x00, 0x00]), refused(11, 4));
    assert_eq!(check(&[0x08]), refused(11, 4));
    assert_eq!(check(&[0x12, 0x00]), Ok(Totals { records: 1, values: 0 }));
    assert_eq!(check(&[0x12]), refused(6, 7));
    assert_eq!(check(&vec![0; MOST_BYTES + 1]), refused(12, 0));
    for (heading, values) in records() {
        let mut buffer = of_record(heading, &values);
        assert_eq!(check(&buffer), Ok(Totals { records: 1, values: values.len() as u64 }));
        buffer.push(0);
        assert_eq!(check(&buffer).map_err(|refusal| refusal.answer), Err(11));
    }
}

#[test]
fn places_and_instants_are_found() {
    let values = [5, 5, 9, 70, 400];
    for heading in HEADINGS {
        let stream = of_record(heading, &values);
        let stop = 8 * stream.len() as u64;
        for place in 0..5 {
            assert_eq!(look_up(&stream, 0, stop, heading[2], place), Ok(values[place as usize]));
        }
        assert_eq!(look_up(&stream, 0, stop, heading[2], 5), refused(13, 0));
        assert_eq!(look_up(&stream, 0, stop, heading[2], u64::MAX), refused(13, 0));
        assert_eq!(look_up(&stream, 0, 3, heading[2], 5), refused(6, 0));
        if heading[2] == 0 {
            assert_eq!(search(&stream, 0, stop, 5), refused(7, 4));
            continue;
        }
        for (instant, below) in [(0, 0), (5, 0), (6, 2), (9, 2), (10, 3), (400, 4), (4_294_967_295, 5)] {
            assert_eq!(search(&stream, 0, stop, instant), Ok(below));
        }
    }
    assert_eq!(look_up(&[0x10], 4, 8, 1, 0), refused(7, 4));
    assert_eq!(search(&[0x10], 4, 8, 0), refused(7, 4));
}
