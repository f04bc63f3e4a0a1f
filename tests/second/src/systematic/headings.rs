//! Every heading, right and wrong, also numbers that would be right if they were cut to fewer bits.

use super::Cases;
use second::naive::heading::Entry;
use second::naive::writer::Request;

const CODES: [u32; 15] = [0, 1, 2, 3, 4, 5, 6, 7, 16, 17, 257, 65_539, 1 << 31, (1 << 31) + 1, u32::MAX];
const KINDS: [u32; 11] = [0, 1, 2, 3, 4, 5, 256, 257, 258, 65_537, u32::MAX];
const FAR_PARAMETERS: [u32; 8] = [63, 64, 200, 256, 260, 65_536, 1 << 31, u32::MAX];

pub fn run(cases: &mut Cases) {
    let unsigned: [&[i64]; 4] = [&[], &[1], &[5, 5, 9], &[3, 1, 4_294_967_295]];
    let signed: [&[i64]; 4] = [&[], &[-1], &[3, -3, 70], &[7, 0, -2_147_483_648]];
    for (entry, lists) in [(Entry::Unsigned, unsigned), (Entry::Corrections, signed)] {
        for code in CODES {
            for kind in KINDS {
                for parameter in (0..=33).chain(FAR_PARAMETERS) {
                    for values in lists {
                        let request = Request { entry, code, parameter, kind, values: values.to_vec() };
                        let start = cases.start_in_byte();
                        cases.write(48, start, &request);
                    }
                }
            }
        }
    }
}
