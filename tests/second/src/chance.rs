//! Random cases, weighted so that successes, near misses and each refusal are all frequent.

use crate::case::{Call, Case};
use crate::lists;
use crate::rooms::{background, length, rooms, MOST_BYTES};
use second::naive::heading::Entry;
use second::naive::writer::Request;
use second::random::Random;

pub fn case(random: &mut Random) -> Case {
    if random.once_in(20) {
        let bytes = random.between(0, 40) as usize;
        let start = random.between(0, 8 * bytes as u64 + 4);
        return placed(random, bytes, start, Call::End);
    }
    let request = request(random);
    let (bytes, start) = position(random, length(&request));
    placed(random, bytes, start, Call::Write(request))
}

fn placed(random: &mut Random, bytes: usize, start: u64, call: Call) -> Case {
    let look = random.number();
    Case { bytes: background(look, bytes, random), start, call }
}

fn request(random: &mut Random) -> Request {
    let kind = random.between(0, 2) as u32;
    let code = if kind == 1 { random.between(1, 5) } else { random.between(1, 4) } as u32;
    let parameter = parameter(random, code);
    let entry = if kind == 2 { Entry::Corrections } else { Entry::Unsigned };
    let mut request = Request { entry, code, parameter, kind, values: values(random, kind, code, parameter) };
    let any = random.number() as u32;
    if random.once_in(30) {
        request.code = random.one_of(&[0, 1, 2, 3, 4, 5, 6, any]);
    }
    if random.once_in(30) {
        request.kind = random.one_of(&[0, 1, 2, 3, u32::MAX, any]);
    }
    request
}

fn parameter(random: &mut Random, code: u32) -> u32 {
    if code == 3 && !random.once_in(30) {
        return random.between(0, 31) as u32;
    }
    let any = random.number() as u32;
    random.one_of(&[0, 31, 32, 200, u32::MAX, any])
}

fn values(random: &mut Random, kind: u32, code: u32, parameter: u32) -> Vec<i64> {
    let count = count(random);
    let mut values = lists::values(random, kind, code, parameter, count);
    while !values.is_empty() && random.once_in(6) {
        plant_fault(random, kind, &mut values);
    }
    values
}

fn count(random: &mut Random) -> u64 {
    match random.between(1, 200) {
        1 => 4_096,
        2 => random.between(4_097, 4_200),
        3 => random.between(300, 4_095),
        4..=20 => random.between(30, 300),
        _ => random.between(0, 12),
    }
}

fn plant_fault(random: &mut Random, kind: u32, values: &mut [i64]) {
    let at = random.between(0, values.len() as u64 - 1) as usize;
    values[at] = match kind {
        0 => 0,
        1 if random.once_in(3) => 4_294_967_295,
        1 if at > 0 => (values[at - 1] - 1).max(0),
        1 => values[values.len() - 1].saturating_add(1).min(4_294_967_295),
        _ => random.one_of(&[0, i64::from(i32::MIN)]),
    };
}

/// A buffer's bytes and a start for a record of this many bits.
fn position(random: &mut Random, length: u64) -> (usize, u64) {
    let within = random.one_of(&[7, 7, 7, 100, 4_000]);
    let start = random.between(0, within);
    if random.once_in(300) {
        let bytes = MOST_BYTES + random.between(0, 1) as usize;
        return (bytes, random.between(0, 8 * bytes as u64));
    }
    if random.once_in(100) {
        let any = random.number();
        return (random.between(0, 20) as usize, random.one_of(&[u64::MAX, any]));
    }
    if random.once_in(20) {
        return (random.between(0, 20) as usize, start);
    }
    let weighted = rooms(length, start);
    if random.once_in(2) {
        return random.one_of(&weighted);
    }
    (weighted[0].0 + random.between(0, 9) as usize, weighted[0].1)
}
