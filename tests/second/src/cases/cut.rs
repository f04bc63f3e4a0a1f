//! Streams that stop in each field there is, and where a field would have to start.

use super::largest_values::{LARGEST_INSTANT, LARGEST_WORD};
use super::maker::{at_the_end, corrections, instants, plain, refused, Cases};
use crate::naive::heading::Code::{Delta, Gamma, Interpolative, Rice, VariableByte};

pub fn make(cases: &mut Cases) {
    in_headings(cases);
    in_counts(cases);
    in_words(cases);
    in_delta_words(cases);
    in_offsets(cases);
}

fn in_headings(cases: &mut Cases) {
    let two = [instants(Gamma, &[5, 5, 9]), instants(Interpolative, &[5, 5, 9])];
    let accepted = cases.accepted("two-codes-for-5-5-9", "One list in two codes", &two);
    accepted.cut(3, refused(6, 22), "code", "Two bits of the second code are left, and they are no end mark's");
    let two = [plain(Gamma, &[1, 1]), corrections(Gamma, &[-1])];
    let accepted = cases.accepted("kind-across-two-bytes", "A kind of which each byte has a bit", &two);
    accepted.cut(2, refused(6, 15), "kind", "One bit of the second kind is left");
    cases
        .accepted("kind-at-the-start-of-a-byte", "A kind that begins a byte", &[plain(Gamma, &[2]), plain(Gamma, &[2])])
        .cut(2, refused(6, 16), "kind-missing", "No bit of the second kind is left");
    let two = [plain(Gamma, &[1]), plain(Rice(4), &[1])];
    let accepted = cases.accepted("k-at-the-start-of-a-byte", "A parameter that begins a byte", &two);
    accepted.cut(2, refused(6, 16), "k-missing", "No bit of k is left");
}

fn in_counts(cases: &mut Cases) {
    let two = [plain(Gamma, &[1]), plain(Gamma, &[1])];
    let accepted = cases.accepted("count-at-the-start-of-a-byte", "A count that begins a byte", &two);
    accepted.cut(2, refused(6, 16), "count-missing", "No bit of the second count is left");
    let shows = "A count of 18 zeros is cut, though it shows already that it is too large";
    cases.refused(refused(6, 6), "count-18-zeros", shows, vec![0x10, 0x00, 0x00]);
    let zeros = at_the_end(&[1, 1], &format!("0001 00 {}", "0".repeat(31)));
    cases.refused(refused(6, 17), "count-31-zeros", "A count of 31 zeros, the most that a word begins with", zeros);
}

fn in_words(cases: &mut Cases) {
    cases
        .accepted("rice-4-plain-83", "Document 01's Rice word", &[plain(Rice(4), &[83])])
        .cut(1, refused(6, 6), "k", "Two bits of k are left")
        .cut(2, refused(6, 14), "rice-zeros", "Two zeros of the word are left");
    let accepted = cases.accepted("rice-31-plain-2", "A remainder of 31 bits", &[plain(Rice(31), &[2])]);
    accepted.cut(3, refused(6, 14), "rice-remainder", "Nine bits of the remainder are left");
    cases
        .accepted("variable-byte-plain-128", "Document 01's word of two groups", &[plain(VariableByte, &[128])])
        .cut(
            2,
            refused(6, 9),
            "variable-byte-first-group",
            "Six zeros of the first group are left, the seventh bit may be a one",
        )
        .cut(3, refused(6, 9), "variable-byte-last-group", "All but the last bit are left");
    let accepted = cases.accepted("gamma-plain-largest", "A gamma word of 63 bits", &[plain(Gamma, &[LARGEST_WORD])]);
    accepted.cut(5, refused(6, 9), "gamma-31-zeros", "31 zeros, the most that a word begins with");
    let almost = at_the_end(&[1], &format!("0011 00 11111 010 01 {}", "1".repeat(30)));
    cases.refused(refused(6, 24), "rice-31-01-and-30-ones", "The last bit may be a zero", almost);
}

fn in_delta_words(cases: &mut Cases) {
    let accepted = cases.accepted("delta-plain-14", "Document 01's delta word", &[plain(Delta, &[14])]);
    accepted.cut(2, refused(6, 9), "delta-binary", "The length and two binary digits are left");
    let accepted = cases.accepted("delta-plain-200", "A length word that ends a byte", &[plain(Delta, &[200])]);
    accepted.cut(2, refused(6, 9), "delta-length-alone", "A whole length and no digit behind it");
    let one = at_the_end(&[1, 1, 1], "0010 00 010 1");
    cases.refused(refused(6, 23), "delta-1", "1 and the stream's end", one);
}

fn in_offsets(cases: &mut Cases) {
    let wide = [instants(Interpolative, &[LARGEST_INSTANT - 1, LARGEST_INSTANT])];
    cases
        .accepted("interpolative-offset-of-32-bits", "The widest offset there is", &wide)
        .cut(7, refused(6, 52), "offset-begun", "Four bits of the offset are left")
        .cut(10, refused(6, 52), "offset-nearly-whole", "28 bits of the offset are left");
}
