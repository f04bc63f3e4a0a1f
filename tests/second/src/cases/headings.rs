//! Codes and kinds that there are not, or not together.

use super::codes_and_kinds::code_name;
use super::maker::{corrections, instants, padded, plain, refused, Cases};
use crate::naive::bits::{in_width, of_text};
use crate::naive::heading::Code::{Delta, Gamma, Interpolative, Rice, VariableByte};

pub fn make(cases: &mut Cases) {
    unknown_codes(cases);
    kind_3(cases);
    code_5_without_kind_1(cases);
}

fn unknown_codes(cases: &mut Cases) {
    for code in 6..=15 {
        let bytes = padded(&[in_width(code, 4), of_text("00 1 0000")].concat());
        cases.refused(refused(7, 0), &format!("code-{code}"), "A code that there is not", bytes);
    }
    let two = [plain(Gamma, &[1, 1]), plain(VariableByte, &[])];
    let accepted = cases.accepted("gamma-plain-then-variable-byte", "Two codes in a stream", &two);
    accepted.turned(13, refused(7, 11), "code-6-in-the-second-record", "The second record's code is 6");
}

fn kind_3(cases: &mut Cases) {
    for code in [Gamma, Delta, Rice(4), VariableByte, Interpolative] {
        let name = code_name(code);
        let accepted = cases.accepted(&format!("{name}-instants-7"), "A list of kind 1", &[instants(code, &[7])]);
        accepted.turned(4, refused(7, 4), &format!("kind-3-{name}"), "A kind that there is not");
    }
    let shows = "The kind 3 is refused before k is found cut";
    cases.refused(refused(7, 4), "kind-3-before-k", shows, vec![0x3C]);
}

fn code_5_without_kind_1(cases: &mut Cases) {
    let accepted = cases.accepted("interpolative-instants-8", "A list of kind 1", &[instants(Interpolative, &[8])]);
    accepted.turned(5, refused(7, 4), "interpolative-kind-0", "Code 5 with kind 0");
    let accepted = cases.accepted("gamma-corrections-8", "A list of kind 2", &[corrections(Gamma, &[8])]);
    accepted.turned(1, refused(7, 4), "interpolative-kind-2", "Code 5 with kind 2");
}
