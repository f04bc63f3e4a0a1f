//! The committed files are those that are made, and show all that the stream check can answer.

use super::{differences, folder, groups, Case};
use crate::naive::bits::{of_text, taken};
use std::collections::BTreeSet;

const MOST_BYTES_IN_ALL: usize = 500_000;

fn cases() -> Vec<Case> {
    groups().into_iter().flat_map(|group| group.cases).collect()
}

/// The numbers at the front of each line that begins with a number.
fn headings() -> BTreeSet<Vec<u32>> {
    let text: String = cases().iter().map(|case| case.printed.clone()).collect();
    let heading = |line: &str| line.split(' ').take(4).map(|number| number.parse().ok()).collect();
    text.lines().filter_map(heading).collect()
}

fn case(name: &str) -> Case {
    cases().into_iter().find(|case| case.name == name).expect("a case of this name")
}

#[test]
fn the_committed_files_are_those_made() {
    let differences = differences().expect("the files can be read");
    assert!(differences.is_empty(), "{}", differences.join("\n"));
}

#[test]
fn the_folder_is_small() {
    assert!(folder::files().values().map(Vec::len).sum::<usize>() < MOST_BYTES_IN_ALL);
}

#[test]
fn no_two_streams_are_equal() {
    let cases = cases();
    let streams: BTreeSet<&[u8]> = cases.iter().map(|case| &case.bytes[..]).collect();
    assert_eq!(streams.len(), cases.len());
}

#[test]
fn every_answer_of_the_check_occurs() {
    let answer = |case: &Case| match case.printed.strip_prefix("refused ") {
        Some(numbers) => numbers.split(' ').next().and_then(|number| number.parse().ok()).expect("an answer"),
        None => 0,
    };
    let answers: BTreeSet<u32> = cases().iter().map(answer).collect();
    assert_eq!(answers, BTreeSet::from([0, 6, 7, 8, 9, 10, 11, 12]));
}

#[test]
fn every_code_and_kind_occurs() {
    let mut pairs: BTreeSet<Vec<u32>> = (1..=4).flat_map(|code| (0..=2).map(move |kind| vec![code, kind])).collect();
    pairs.insert(vec![5, 1]);
    let pairs_of = |fits: fn(u32) -> bool| -> BTreeSet<Vec<u32>> {
        headings().into_iter().filter(|heading| fits(heading[3])).map(|heading| heading[..2].to_vec()).collect()
    };
    assert_eq!(pairs_of(|count| count == 0), pairs);
    assert_eq!(pairs_of(|count| count == 1), pairs);
    assert_eq!(pairs_of(|count| count > 1), pairs);
}

#[test]
fn every_k_occurs() {
    let rice: BTreeSet<u32> =
        headings().into_iter().filter(|heading| heading[0] == 3).map(|heading| heading[2]).collect();
    assert_eq!(rice, (0..32).collect());
}

#[test]
fn every_number_of_padding_bits_occurs() {
    for padding in 0..8 {
        let Case { bytes, .. } = case(&format!("padding-{padding}"));
        let bits = taken(&bytes, 8 * bytes.len());
        let last_one = bits.iter().rposition(|&bit| bit).expect("a list of ones");
        assert_eq!(bits.len() - (last_one + 1) - 4, padding);
    }
}

#[test]
fn document_01_s_own_streams() {
    let own: [(&str, &[u8], &str); 7] = [
        ("gamma-instants-5-5-9", &[0x14, 0x86, 0x94, 0x00], "1 1 0 3 5 5 9\nend\n"),
        ("gamma-instants-5-9", &[0x15, 0x98, 0xA0], "1 1 0 2 5 9\nend\n"),
        ("interpolative-instants-5-5-9", &[0x54, 0x84, 0xA5, 0x00], "5 1 0 3 5 5 9\nend\n"),
        ("no-records", &[0x00], "end\n"),
        ("gamma-plain-empty", &[0x12, 0x00], "1 0 0 0\nend\n"),
        ("refused-6-empty-file", &[], "refused 6 0\n"),
        ("refused-11-further-byte-01", &[0x00, 0x01], "refused 11 4\n"),
    ];
    for (name, bytes, printed) in own {
        let case = case(name);
        assert_eq!((&case.bytes[..], &case.printed[..]), (bytes, printed));
    }
}

/// Worked out by hand: heading, delta of 10, and the offsets 3 of 10, 0 of 4, 0 of 4, 0 of 7, 0 of 1 and 3 of 7.
#[test]
fn seven_instants() {
    let bits = of_text("0101 01 0001000 00100 1010 0011 00 00 000 011 0000");
    assert_eq!(taken(&case("interpolative-seven-instants").bytes, bits.len()), bits);
}
