//! Bits that begin no word of their code, and offsets that are not below V.

use super::largest_values::{LARGEST_INSTANT, LARGEST_WORD};
use super::maker::{at_the_end, instants, plain, refused, Cases};
use crate::naive::heading::Code::{Delta, Gamma, Interpolative, Rice, VariableByte};

pub fn make(cases: &mut Cases) {
    gamma(cases);
    delta(cases);
    rice(cases);
    variable_byte(cases);
    offsets(cases);
    where_the_stream_ends(cases);
}

fn gamma(cases: &mut Cases) {
    cases
        .accepted("gamma-plain-largest-then-1", "A word that begins with 31 zeros", &[plain(Gamma, &[LARGEST_WORD, 1])])
        .turned(40, refused(9, 9), "gamma-32-zeros", "32 zeros begin no word");
    cases.refused(refused(9, 6), "count-34-zeros", "34 zeros begin no count", vec![0x10, 0, 0, 0, 0]);
}

fn delta(cases: &mut Cases) {
    let accepted = cases.accepted("delta-plain-1", "Document 01's delta word 11", &[plain(Delta, &[1])]);
    accepted.turned(10, refused(9, 9), "delta-10", "A zero where the binary digits must begin with a one");
    let accepted = cases.accepted("delta-plain-15", "A length word of four digits", &[plain(Delta, &[15])]);
    accepted.turned(14, refused(9, 9), "delta-leading-zero", "A zero where the binary digits must begin with a one");
    cases
        .accepted("delta-plain-largest", "A length of 32", &[plain(Delta, &[LARGEST_WORD])])
        .turned(14, refused(9, 9), "delta-six-zeros", "Six zeros begin no length up to 32")
        .turned(15, refused(9, 9), "delta-length-48", "A length of 48")
        .turned(19, refused(9, 9), "delta-length-33", "A length of 33");
}

fn rice(cases: &mut Cases) {
    let accepted = cases.accepted("rice-31-plain-2147483649", "The quotient 1", &[plain(Rice(31), &[2_147_483_649])]);
    accepted.turned(15, refused(9, 14), "rice-31-two-zeros", "No word has the quotient 2");
    let accepted =
        cases.accepted("rice-31-plain-largest", "01, 30 ones and a zero", &[plain(Rice(31), &[LARGEST_WORD])]);
    accepted.turned(46, refused(9, 14), "rice-31-4294967296", "It would be 4,294,967,296");
    cases
        .accepted("rice-30-plain-largest", "0001, 29 ones and a zero", &[plain(Rice(30), &[LARGEST_WORD])])
        .turned(17, refused(9, 14), "rice-30-four-zeros", "No word has the quotient 4")
        .turned(47, refused(9, 14), "rice-30-4294967296", "It would be 4,294,967,296");
    let accepted =
        cases.accepted("rice-20-plain-largest", "4,095 zeros before the one", &[plain(Rice(20), &[LARGEST_WORD])]);
    accepted.turned(4_109, refused(9, 14), "rice-20-4096-zeros", "No word has the quotient 4,096");
}

fn variable_byte(cases: &mut Cases) {
    let accepted = cases.accepted("variable-byte-plain-1", "One group", &[plain(VariableByte, &[1])]);
    accepted.turned(16, refused(9, 9), "variable-byte-0", "It would be 0");
    let accepted =
        cases.accepted("variable-byte-plain-128-129", "Two groups each", &[plain(VariableByte, &[128, 129])]);
    accepted.turned(32, refused(9, 25), "variable-byte-first-group-0", "The first of two groups is 0");
    cases
        .accepted("variable-byte-plain-16384", "Three groups, the second 0", &[plain(VariableByte, &[16_384])])
        .turned(16, refused(9, 9), "variable-byte-two-groups-0", "The first of three groups is 0");
    let accepted =
        cases.accepted("variable-byte-plain-268435455", "Four full groups", &[plain(VariableByte, &[268_435_455])]);
    accepted.turned(33, refused(9, 9), "variable-byte-fourth-flag", "A fifth group would make it too large");
    cases
        .accepted("variable-byte-plain-largest", "Five groups", &[plain(VariableByte, &[LARGEST_WORD])])
        .turned(
            12,
            refused(9, 9),
            "variable-byte-first-of-five",
            "A first group of 31 with four behind it is too large",
        )
        .turned(41, refused(9, 9), "variable-byte-fifth-flag", "There is no sixth group");
}

fn offsets(cases: &mut Cases) {
    let accepted =
        cases.accepted("interpolative-instants-2-2", "Offset 2 of V = 3", &[instants(Interpolative, &[2, 2])]);
    accepted.turned(15, refused(9, 14), "offset-3-of-3", "The offset is not below V");
    let widest = [instants(Interpolative, &[LARGEST_INSTANT, LARGEST_INSTANT])];
    let accepted =
        cases.accepted("interpolative-instants-largest-twice", "The last offset below V = 4,294,967,295", &widest);
    accepted.turned(83, refused(9, 52), "offset-4294967295", "The offset is not below V");
}

/// What begins no word is bad and not cut, even if the stream ends at once.
fn where_the_stream_ends(cases: &mut Cases) {
    let zeros = "0".repeat(32);
    let ends: [(&str, u64, &[i64], String); 6] = [
        ("count-32-zeros-at-the-end", 16, &[1], format!("0001 00 {zeros}")),
        ("gamma-32-zeros-at-the-end", 16, &[], format!("0001 00 010 {zeros}")),
        ("delta-10-at-the-end", 22, &[1, 2], "0010 00 010 10".to_owned()),
        ("rice-31-two-zeros-at-the-end", 30, &[9], "0011 00 11111 010 00".to_owned()),
        ("rice-31-01-and-31-ones-at-the-end", 31, &[1; 6], format!("0011 00 11111 010 01 {}", "1".repeat(31))),
        ("variable-byte-10000000-at-the-end", 16, &[], "0100 00 010 10000000".to_owned()),
    ];
    for (what, told, before, text) in ends {
        let shows = "No word begins so, and the stream ends with it";
        cases.refused(refused(9, told), what, shows, at_the_end(before, &text));
    }
}
