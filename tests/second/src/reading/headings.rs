//! Every code and kind that four and two bits can say, right and wrong, before bodies that could be theirs.

use super::calls::every_entry;
use super::cases::Cases;
use super::placed::{ended, Placed};
use second::naive::bits::{in_width, Bits};
use second::naive::codes::gamma;

pub fn run(cases: &mut Cases) {
    for code in 0..16 {
        for kind in 0..4 {
            for count in [0, 1, 3] {
                let k = in_width(cases.random.between(0, 31), if code == 3 { 5 } else { 0 });
                let body: Bits = (0..40).map(|_| cases.random.once_in(2)).collect();
                at_every_stop(cases, &[in_width(code, 4), in_width(kind, 2), k, gamma(count + 1), body].concat());
            }
        }
    }
}

fn at_every_stop(cases: &mut Cases, bits: &[bool]) {
    let placed = Placed::among_others(cases.random, bits);
    for stop in placed.start..=placed.end {
        let calls = every_entry(cases.random, &[1, 1, 2]);
        cases.make(placed.up_to(stop), &calls);
    }
    cases.check(&ended(bits));
}
