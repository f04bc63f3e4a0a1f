//! Every number of padding bits, and what may not stand there or behind.

use super::maker::{plain, refused, Accepted, Cases};
use crate::naive::heading::Code::Gamma;

/// Plain gamma lists of so many ones leave 0, 1, 2 and so on up to 7 bits of padding.
const ONES: [usize; 8] = [7, 2, 1, 6, 5, 4, 3, 8];

pub fn make(cases: &mut Cases) {
    for (padding, ones) in ONES.into_iter().enumerate() {
        let shows = format!("{padding} bits of padding after the end mark");
        faults(padding, cases.accepted(&format!("padding-{padding}"), &shows, &[plain(Gamma, &vec![1; ones])]));
    }
    cases
        .accepted("end-mark-in-its-own-byte", "The record fills two bytes", &[plain(Gamma, &[9])])
        .cut(2, refused(6, 16), "end-mark-missing", "No bit of the end mark is left")
        .turned(23, refused(11, 20), "padding-alone-in-its-byte", "The last bit of the padding is set");
}

fn faults(padding: usize, accepted: Accepted) {
    let end = 8 * accepted.length();
    let refusal = refused(11, (end - padding) as u64);
    let what = |fault: &str| format!("padding-{padding}-{fault}");
    let shows = "A byte after the padding, though it is zero";
    let mut accepted = accepted.followed(0x00, refusal, &what("further-byte-00"), shows);
    if padding > 0 {
        accepted = accepted.turned(end - 1, refusal, &what("last-bit"), "The last bit of the padding is set");
    }
    if padding > 1 {
        accepted.turned(end - padding, refusal, &what("first-bit"), "The first bit of the padding is set");
    }
}
