//! Each code with each kind it takes: the empty list, one value, and several values.

use super::maker::{of_kind, Cases};
use crate::naive::heading::Code::{self, Delta, Gamma, Interpolative, Rice, VariableByte};
use crate::naive::kinds::Kind::{self, Corrections, Instants, Plain};

const CODES: [Code; 7] = [Gamma, Delta, Rice(0), Rice(4), Rice(31), VariableByte, Interpolative];

pub fn make(cases: &mut Cases) {
    for code in CODES {
        for kind in kinds(code) {
            lists(cases, code, kind);
        }
    }
    let every_k: Vec<_> = (0..32).map(|k| of_kind(Rice(k), Plain, &[1, 2, 83])).collect();
    cases.accepted("rice-plain-every-k", "One list as a Rice record with each k from 0 to 31", &every_k);
}

pub fn kinds(code: Code) -> Vec<Kind> {
    match code {
        Interpolative => vec![Instants],
        _ => vec![Plain, Instants, Corrections],
    }
}

pub fn code_name(code: Code) -> String {
    match code {
        Gamma => "gamma".to_owned(),
        Delta => "delta".to_owned(),
        Rice(k) => format!("rice-{k}"),
        VariableByte => "variable-byte".to_owned(),
        Interpolative => "interpolative".to_owned(),
    }
}

pub fn kind_name(kind: Kind) -> &'static str {
    match kind {
        Plain => "plain",
        Instants => "instants",
        Corrections => "corrections",
    }
}

/// Some values of a kind, equal instants and both signs among them.
pub fn several(kind: Kind) -> &'static [i64] {
    match kind {
        Plain => &[1, 9, 14, 83, 127, 128, 300],
        Instants => &[5, 5, 9, 9, 9, 20, 300],
        Corrections => &[3, -3, -1, 1, 64, -150],
    }
}

fn lists(cases: &mut Cases, code: Code, kind: Kind) {
    let (several, of) = (several(kind), format!("{}-{}", code_name(code), kind_name(kind)));
    let lists = [("empty", "An empty list", &several[..0]), ("one", "One value", &several[several.len() - 1..])];
    for (name, shows, values) in lists.into_iter().chain([("several", "Several values", several)]) {
        let shows = format!("{shows}: code {}, kind {}, k {}", code.number(), kind.number(), code.parameter());
        cases.accepted(&format!("{of}-{name}"), &shows, &[of_kind(code, kind, values)]);
    }
}
