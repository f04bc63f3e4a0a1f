//! Lists that look like an archive's instants, in seconds: the same seed gives the same list, and none ever falls.

use crate::plain::{LARGEST_INSTANT, MOST_VALUES};

const MINUTE: u64 = 60;
const HOUR: u64 = 60 * MINUTE;
const DAY: u64 = 24 * HOUR;
const WEEK: u64 = 7 * DAY;

/// One kind of list.
pub struct Shape {
    pub name: &'static str,
    /// So many lists are timed at once. They have some thousand values, since a clock cannot time a short list alone.
    pub lists_in_sample: usize,
    pub draw: fn(u64) -> Vec<u32>,
}

pub const SHAPES: [Shape; 4] = [
    Shape { name: "bursts", lists_in_sample: 1, draw: |seed| bursts(seed, MOST_VALUES) },
    Shape { name: "a day", lists_in_sample: 4, draw: day },
    Shape { name: "silences", lists_in_sample: 40, draw: silences },
    Shape { name: "an hour", lists_in_sample: 128, draw: hour },
];

/// Bursts of saves, several in one second, and silences between them, counted from the day before the first.
pub fn bursts(seed: u64, count: usize) -> Vec<u32> {
    let mut random = Random { state: seed };
    let mut now = random.between(0, DAY);
    let mut left_in_burst = 0;
    let mut list = Vec::with_capacity(count);
    while list.len() < count {
        if left_in_burst == 0 {
            left_in_burst = random.between(5, 80);
            now += silence(&mut random);
        } else {
            now += pause(&mut random);
        }
        left_in_burst -= 1;
        now = now.min(u64::from(LARGEST_INSTANT));
        list.push(now as u32);
    }
    list
}

/// The saves of one day, counted from its begin, most of them in working hours.
fn day(seed: u64) -> Vec<u32> {
    let mut random = Random { state: seed };
    let count = random.between(200, 500);
    scattered(&mut random, count, |random| {
        if random.between(1, 10) == 1 {
            random.between(0, DAY - 1)
        } else {
            random.between(8 * HOUR, 18 * HOUR)
        }
    })
}

/// Few saves, hours to weeks apart, counted from the last one before them.
fn silences(seed: u64) -> Vec<u32> {
    let mut random = Random { state: seed };
    let mut now = 0;
    let mut list = Vec::new();
    for _ in 0..24 {
        let longest = [DAY, WEEK, 4 * WEEK][random.between(0, 2) as usize];
        now += random.between(HOUR, longest);
        list.push(now as u32);
    }
    list
}

/// The few saves of a quiet hour, counted from its begin.
fn hour(seed: u64) -> Vec<u32> {
    scattered(&mut Random { state: seed }, 8, |random| random.between(0, HOUR - 1))
}

/// So many saves at drawn seconds, one in eight in the second drawn before.
fn scattered(random: &mut Random, count: u64, draw: fn(&mut Random) -> u64) -> Vec<u32> {
    let mut second = draw(random);
    let mut list = Vec::new();
    for _ in 0..count {
        if random.between(1, 8) > 1 {
            second = draw(random);
        }
        list.push(second as u32);
    }
    list.sort_unstable();
    list
}

/// The time between two bursts: mostly the same day, at times a night or some days.
fn silence(random: &mut Random) -> u64 {
    if random.between(1, 10) == 1 {
        random.between(8 * HOUR, 3 * DAY)
    } else {
        random.between(MINUTE, 2 * HOUR)
    }
}

/// The time between two saves of a burst: a third within one second, else short ones more often than long ones.
fn pause(random: &mut Random) -> u64 {
    if random.between(1, 3) == 1 {
        return 0;
    }
    let bits = random.between(0, 6);
    random.between(1, 1 << bits)
}

/// SplitMix64, so that a list does not depend on the machine or on a package.
struct Random {
    state: u64,
}

impl Random {
    fn number(&mut self) -> u64 {
        self.state = self.state.wrapping_add(0x9E37_79B9_7F4A_7C15);
        let mixed = (self.state ^ (self.state >> 30)).wrapping_mul(0xBF58_476D_1CE4_E5B9);
        let mixed = (mixed ^ (mixed >> 27)).wrapping_mul(0x94D0_49BB_1331_11EB);
        mixed ^ (mixed >> 31)
    }

    fn between(&mut self, least: u64, most: u64) -> u64 {
        least + self.number() % (most - least + 1)
    }
}

#[cfg(test)]
mod tests {
    use super::*;

    /// The gaps of a list that never falls.
    fn gaps(list: &[u32]) -> Vec<u64> {
        list.windows(2).map(|pair| u64::from(pair[1].checked_sub(pair[0]).expect("never falling"))).collect()
    }

    #[test]
    fn bursts_have_equal_seconds_short_pauses_and_silences() {
        let list = bursts(1, 4_096);
        let gaps = gaps(&list);
        assert_eq!(list.len(), 4_096);
        assert!(gaps.iter().filter(|&&gap| gap == 0).count() > 1_000);
        assert!(gaps.iter().filter(|gap| (1..=64).contains(*gap)).count() > 2_000);
        assert!(gaps.iter().any(|&gap| gap > 8 * HOUR));
    }

    #[test]
    fn a_day_has_some_hundred_saves_and_some_share_a_second() {
        for seed in 1..=16 {
            let list = day(seed);
            assert!((200..=500).contains(&list.len()));
            assert!(list.iter().all(|&second| u64::from(second) < DAY));
            assert!(gaps(&list).iter().filter(|&&gap| gap == 0).count() > 10);
        }
    }

    #[test]
    fn silences_last_hours_to_weeks() {
        let gaps: Vec<u64> = (1..=16).flat_map(|seed| gaps(&silences(seed))).collect();
        assert!(gaps.iter().all(|gap| (HOUR..=4 * WEEK).contains(gap)));
        assert!(gaps.iter().any(|&gap| gap < 12 * HOUR));
        assert!(gaps.iter().any(|&gap| gap > 2 * WEEK));
    }

    #[test]
    fn an_hour_has_eight_saves_and_at_times_two_in_a_second() {
        let hours: Vec<Vec<u32>> = (1..=16).map(hour).collect();
        assert!(hours.iter().all(|list| list.len() == 8 && list.iter().all(|&second| u64::from(second) < HOUR)));
        assert!(hours.iter().any(|list| gaps(list).contains(&0)));
    }

    #[test]
    fn a_seed_gives_its_own_list() {
        for Shape { draw, .. } in SHAPES {
            assert_eq!(draw(7), draw(7));
            assert_ne!(draw(7), draw(8));
        }
    }
}
