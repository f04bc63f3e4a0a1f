//! Random lists without faults, whose records are not too long.

use second::random::Random;

pub fn values(random: &mut Random, kind: u32, code: u32, parameter: u32, count: u64) -> Vec<i64> {
    let most_bits = match code {
        3 => (u64::from(parameter) + random.between(0, 6)).min(32),
        _ => random.between(1, 32),
    };
    let mut values: Vec<i64> = (0..count).map(|_| value(random, kind, most_bits)).collect();
    if kind == 1 {
        make_instants(random, &mut values);
    }
    values
}

/// A value of this kind; for instants a gap.
fn value(random: &mut Random, kind: u32, most_bits: u64) -> i64 {
    let at_the_end = most_bits == 32 && random.once_in(16);
    let size = if at_the_end { 4_294_967_295 } else { random.of_bits(most_bits) as i64 };
    match kind {
        0 => size.max(1),
        1 => size,
        _ => {
            let size = (size / 2).max(1);
            random.one_of(&[size, -size])
        }
    }
}

/// Adds up the gaps, where a sum too large becomes the largest instant.
fn make_instants(random: &mut Random, gaps: &mut [i64]) {
    let stay = random.between(2, 9);
    let mut instant = 0;
    for gap in gaps {
        if !random.once_in(stay) {
            instant = (instant + *gap).min(4_294_967_294);
        }
        *gap = instant;
    }
}
