//! Lists of instants that show how code 5 goes about, and streams of several records.

use super::codes_and_kinds::{kinds, several};
use super::maker::{corrections, instants, of_kind, plain, refused, Cases};
use crate::naive::heading::Code::{Delta, Gamma, Interpolative, Rice, VariableByte};
use crate::naive::kinds::Kind::{Corrections, Instants, Plain};

pub fn make(cases: &mut Cases) {
    widths_of_offsets(cases);
    runs_of_equal_instants(cases);
    several_records(cases);
}

fn widths_of_offsets(cases: &mut Cases) {
    let seven = [instants(Interpolative, &[0, 0, 3, 3, 3, 6, 9])];
    cases
        .accepted("interpolative-seven-instants", "Offsets with V = 10, 4, 4, 7, 1 and 7, in this order", &seven)
        .turned(22, refused(9, 22), "offset-11-of-10", "The first offset is not below V = 10")
        .turned(33, refused(9, 33), "offset-7-of-7", "The last offset is not below V = 7");
    let order = [instants(Interpolative, &[1, 2, 4, 8, 16, 32, 64, 128])];
    cases.accepted("interpolative-eight-instants", "Middle, left, right: no two gaps are alike", &order);
}

fn runs_of_equal_instants(cases: &mut Cases) {
    let name = "interpolative-instants-4096-zeros";
    cases.accepted(
        name,
        "4,096 equal instants without a bit after the delta word",
        &[instants(Interpolative, &[0; 4_096])],
    );
    let name = "interpolative-instants-4096-fives";
    let shows = "4,096 equal instants: V = 6 for each middle down the left side, and V = 1 for all others";
    cases.accepted(name, shows, &[instants(Interpolative, &[5; 4_096])]);
    let name = "gamma-instants-4096-fives";
    cases.accepted(name, "4,096 equal instants: after the first a bit for each", &[instants(Gamma, &[5; 4_096])]);
}

fn several_records(cases: &mut Cases) {
    let mut each = Vec::new();
    for code in [Gamma, Delta, Rice(4), VariableByte, Interpolative] {
        each.extend(kinds(code).into_iter().map(|kind| of_kind(code, kind, several(kind))));
    }
    cases.accepted("each-code-and-kind", "A record of each code and kind", &each);
    each.reverse();
    cases.accepted("each-code-and-kind-reversed", "The same records in the other order", &each);
    let empty = [Plain, Instants, Corrections].map(|kind| of_kind(Delta, kind, &[]));
    cases.accepted("delta-three-empty-lists", "Empty lists of each kind", &empty);
    let twice = [instants(Gamma, &[5, 9]), instants(Gamma, &[5, 9])];
    cases.accepted("gamma-instants-5-9-twice", "Equal records stay two", &twice);
    let anew = [instants(VariableByte, &[7, 300]), instants(VariableByte, &[0])];
    cases.accepted("variable-byte-instants-start-anew", "Instants of a later record start from 0 again", &anew);
    let mixed = [plain(Rice(0), &[3, 1]), plain(Gamma, &[]), corrections(Rice(31), &[-1]), plain(Rice(4), &[83])];
    cases.accepted("rice-three-k-in-a-stream", "Each Rice record has its own k", &mixed);
}
