//! Words, instants and corrections at both ends of their ranges, and words at each change of length.

use super::codes_and_kinds::code_name;
use super::maker::{corrections, instants, plain, Cases};
use crate::naive::heading::Code::{self, Delta, Gamma, Interpolative, Rice, VariableByte};

pub const LARGEST_WORD: i64 = 4_294_967_295;
pub const LARGEST_INSTANT: i64 = 4_294_967_294;
const LARGEST_CORRECTION: i64 = 2_147_483_647;

pub fn make(cases: &mut Cases) {
    for code in [Gamma, Delta, Rice(31), VariableByte] {
        words(cases, code);
        corrections_at_both_ends(cases, code);
        instants_at_both_ends(cases, code);
        largest_instant_twice(cases, code);
    }
    instants_at_both_ends(cases, Interpolative);
    changes_of_length(cases);
}

fn words(cases: &mut Cases, code: Code) {
    let name = format!("{}-plain-1-and-largest", code_name(code));
    cases.accepted(&name, "The smallest word and the largest", &[plain(code, &[1, LARGEST_WORD])]);
}

fn corrections_at_both_ends(cases: &mut Cases, code: Code) {
    let name = format!("{}-corrections-ends", code_name(code));
    let ends = [LARGEST_CORRECTION, -LARGEST_CORRECTION, -1, 1];
    cases.accepted(&name, "The largest, the smallest, and both beside zero", &[corrections(code, &ends)]);
}

fn instants_at_both_ends(cases: &mut Cases, code: Code) {
    let name = format!("{}-instants-largest", code_name(code));
    cases.accepted(&name, "The largest instant", &[instants(code, &[LARGEST_INSTANT])]);
    let name = format!("{}-instants-0-and-largest", code_name(code));
    cases.accepted(&name, "The smallest instant and the largest", &[instants(code, &[0, LARGEST_INSTANT])]);
}

fn largest_instant_twice(cases: &mut Cases, code: Code) {
    let name = format!("{}-instants-largest-twice", code_name(code));
    cases.accepted(&name, "The largest instant twice", &[instants(code, &[LARGEST_INSTANT; 2])]);
}

/// The words on both sides of each change of length.
fn changes_of_length(cases: &mut Cases) {
    let powers: Vec<i64> = (1..=32).flat_map(|digits| [1 << (digits - 1), (1 << digits) - 1]).collect();
    for code in [Gamma, Delta] {
        let name = format!("{}-plain-every-length", code_name(code));
        cases.accepted(&name, "The first and the last word of each number of binary digits", &[plain(code, &powers)]);
    }
    let groups: Vec<i64> = (1..=4).flat_map(|groups| [(1 << (7 * groups)) - 1, 1 << (7 * groups)]).collect();
    let shows = "The last word of each number of groups and the first of the next, with groups of 0 further on";
    cases.accepted("variable-byte-plain-every-length", shows, &[plain(VariableByte, &groups)]);
    let example = [plain(VariableByte, &[127, 128, 65_536])];
    cases.accepted("variable-byte-plain-127-128-65536", "Document 01's words of one, two and three groups", &example);
    let quotients = [1 << 30, (1 << 30) + 1, 1 << 31, (1 << 31) + 1, 3 << 30, (3 << 30) + 1, LARGEST_WORD];
    cases.accepted(
        "rice-30-plain-every-quotient",
        "The edges of each quotient that k = 30 has",
        &[plain(Rice(30), &quotients)],
    );
}
