//! Words that form no value of their kind: instants that are too large, and the correction 0.

use super::codes_and_kinds::code_name;
use super::largest_values::{LARGEST_INSTANT, LARGEST_WORD};
use super::maker::{corrections, instants, padded, refused, Cases};
use crate::naive::bits::in_width;
use crate::naive::codes::gamma;
use crate::naive::heading::Code::{Delta, Gamma, Rice, VariableByte};

pub fn make(cases: &mut Cases) {
    instants_too_large(cases);
    sum_of_33_bits(cases);
    correction_of_nothing(cases);
}

fn instants_too_large(cases: &mut Cases) {
    for (code, bit, told) in [(Gamma, 74, 72), (Delta, 56, 52), (Rice(31), 77, 47), (VariableByte, 56, 49)] {
        let name = code_name(code);
        let last_two = [instants(code, &[LARGEST_INSTANT - 1, LARGEST_INSTANT])];
        let accepted = cases.accepted(&format!("{name}-instants-last-two"), "The two largest instants", &last_two);
        let accepted =
            accepted.turned(bit, refused(10, told), &format!("{name}-instant"), "The second instant is too large");
        if code == VariableByte {
            let shows = "A bad word is refused before an instant is formed of it";
            accepted.turned(55, refused(9, told), "variable-byte-after-the-last-but-one", shows);
        }
    }
}

fn sum_of_33_bits(cases: &mut Cases) {
    let mut bits = [in_width(1, 4), in_width(1, 2), gamma(3)].concat();
    bits.extend([gamma(LARGEST_WORD as u64), gamma(LARGEST_WORD as u64), in_width(0, 4)].concat());
    cases.refused(refused(10, 72), "instant-of-33-bits", "The largest word after the largest instant", padded(&bits));
}

fn correction_of_nothing(cases: &mut Cases) {
    let words =
        [(Gamma, -1, 9, 9), (Delta, -1, 9, 9), (Rice(0), 1, 14, 14), (Rice(4), 1, 18, 14), (Rice(31), 1, 45, 14)];
    for (code, value, bit, told) in words.into_iter().chain([(VariableByte, -1, 15, 9)]) {
        let name = code_name(code);
        cases
            .accepted(
                &format!("{name}-corrections-beside-0"),
                "A correction beside zero",
                &[corrections(code, &[value])],
            )
            .turned(bit, refused(10, told), &format!("{name}-correction"), "The word 1 is no correction");
    }
    let accepted = cases.accepted("gamma-corrections-3-minus-1", "Two signs", &[corrections(Gamma, &[3, -1])]);
    accepted.turned(14, refused(10, 14), "gamma-second-correction", "The second word is 1");
}
