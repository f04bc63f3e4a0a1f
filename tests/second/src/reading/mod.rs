//! The readers' half: cases chosen by rule and at random, and their comparison.

mod answer;
mod boundary;
mod call;
mod calls;
mod cases;
mod comparison;
mod damaged;
mod headings;
mod limit_words;
mod limits;
mod offsets;
mod placed;
mod positions;
mod records;
mod report;
mod small_world;
mod streams;
mod tally;

use cases::Cases;
pub use comparison::Comparison;
use second::random::Random;
pub use tally::Tally;

/// Cases chosen by rule, so that no edge depends on luck; beside them is the small world.
pub fn systematic(random: &mut Random, comparison: &mut Comparison) {
    let mut cases = Cases { random, comparison };
    records::run(&mut cases);
    headings::run(&mut cases);
    positions::run(&mut cases);
    limit_words::run(&mut cases);
    offsets::run(&mut cases);
    streams::run(&mut cases);
    limits::run(&mut cases);
}

/// All small buffers. No other part takes so long, so that this one has a thread of its own.
pub fn small_world(seed: u64) -> Tally {
    let mut random = Random::seeded(seed);
    let mut comparison = Comparison { seed, tally: Tally::default() };
    small_world::run(&mut Cases { random: &mut random, comparison: &mut comparison });
    comparison.tally
}

/// How often a record is damaged and a stream is made for each that is stopped at every bit.
const DAMAGES: usize = 10;

/// About so many random cases.
pub fn chance(random: &mut Random, comparison: &mut Comparison, number: u64) {
    let last = comparison.tally.cases + number;
    while comparison.tally.cases < last {
        let mut cases = Cases { random, comparison };
        let record = records::drawn(cases.random);
        records::one(&mut cases, &record);
        for _ in 0..DAMAGES {
            damaged::one(&mut cases, &record);
            streams::one(&mut cases);
        }
    }
}
