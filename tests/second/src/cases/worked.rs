//! The streams that document 01 works out itself, but for the empty gamma list, which stands among the codes and kinds.

use super::maker::{instants, refused, Cases};
use crate::naive::heading::Code::{Gamma, Interpolative};

pub fn make(cases: &mut Cases) {
    cases
        .accepted("gamma-instants-5-5-9", "Equal instants stay two", &[instants(Gamma, &[5, 5, 9])])
        .cut(1, refused(6, 6), "count", "Two bits of the count are left")
        .cut(2, refused(6, 16), "word-missing", "No bit of the second word is left")
        .cut(3, refused(6, 22), "end-mark", "Two bits of the end mark are left");
    let accepted = cases.accepted("gamma-instants-5-9", "The same without the second 5", &[instants(Gamma, &[5, 9])]);
    accepted.cut(2, refused(6, 14), "gamma-word", "Two bits of the second word are left");
    let interpolative = [instants(Interpolative, &[5, 5, 9])];
    cases
        .accepted("interpolative-instants-5-5-9", "Equal instants stay two in code 5", &interpolative)
        .cut(2, refused(6, 11), "interpolative-last-instant", "Five bits of the delta word are left")
        .cut(3, refused(6, 24), "offset-missing", "No bit of the second offset is left");
    cases
        .accepted("no-records", "An end mark alone", &[])
        .cut(0, refused(6, 0), "empty-file", "No bits at all")
        .followed(0x01, refused(11, 4), "further-byte-01", "A byte after the padding");
}
