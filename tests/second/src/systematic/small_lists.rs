//! All short lists over a few values, equal, rising and falling.

use super::{in_every_code, Cases};

const LONGEST: u32 = 4;

pub fn run(cases: &mut Cases) {
    let alphabets: [(u32, &[i64]); 4] = [
        (0, &[0, 1, 2, 3, 8]),
        (1, &[0, 1, 2, 3, 4, 7]),
        (1, &[0, 1, 4_294_967_293, 4_294_967_294, 4_294_967_295]),
        (2, &[-3, -1, 0, 1, 2]),
    ];
    for (kind, alphabet) in alphabets {
        for values in all_lists(alphabet) {
            for request in in_every_code(kind, &values, [0, 1, 2, 31].into_iter()) {
                cases.in_all_rooms(&request);
            }
        }
    }
}

fn all_lists(alphabet: &[i64]) -> Vec<Vec<i64>> {
    let mut lists = vec![vec![]];
    let mut longest = lists.clone();
    for _ in 0..LONGEST {
        let one_more =
            |list: &Vec<i64>| alphabet.iter().map(|&value| [&list[..], &[value]].concat()).collect::<Vec<_>>();
        longest = longest.iter().flat_map(one_more).collect();
        lists.extend(longest.iter().cloned());
    }
    lists
}
