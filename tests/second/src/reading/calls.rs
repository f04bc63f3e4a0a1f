//! Calls about a list that stands, or was meant to stand, in a buffer.

use super::call::Call;
use second::naive::heading::Entry;
use second::random::Random;

/// The kinds each entry takes.
pub const OWN: [(Entry, u32); 3] = [(Entry::Unsigned, 0), (Entry::Unsigned, 1), (Entry::Corrections, 2)];

/// Kinds of which each entry refuses all but its own, some of them right if they were cut to fewer bits.
pub const KINDS: [u32; 10] = [0, 1, 2, 3, 4, 5, 256, 258, 65_537, u32::MAX];

/// A call of each entry for each of its kinds and for a drawn one, with drawn rooms, places and instants.
pub fn every_entry(random: &mut Random, values: &[i64]) -> Vec<Call> {
    let drawn = [Entry::Unsigned, Entry::Corrections].map(|entry| (entry, random.one_of(&KINDS)));
    let mut calls = Vec::new();
    for (entry, kind) in OWN.into_iter().chain(drawn) {
        calls.push(Call::Read { entry, kind, room: room(random, values.len()) });
        calls.push(Call::LookUp { entry, kind, place: place(random, values.len()) });
    }
    calls.push(Call::Search { instant: instant(random, values) });
    calls
}

pub fn room(random: &mut Random, count: usize) -> usize {
    if random.once_in(100) {
        return random.one_of(&[4_095, 4_096, 4_097, 5_000]);
    }
    let any = random.between(0, 20) as usize;
    random.one_of(&[count.saturating_sub(1), count, count, count + 1, count + any, any])
}

pub fn place(random: &mut Random, count: usize) -> u64 {
    let count = count as u64;
    let inside = random.between(0, count);
    let far = random.one_of(&[1 << 16, 1 << 31, 1 << 32, 1 << 63]) + inside;
    let any = random.number();
    random.one_of(&[0, inside, inside, inside, count.saturating_sub(1), count, count + 1, far, any, u64::MAX])
}

/// An instant at or about one of the values, or anywhere.
pub fn instant(random: &mut Random, values: &[i64]) -> u32 {
    let any = random.number() as u32;
    let about = match values {
        [] => any,
        _ => (random.one_of(values) + random.between(0, 2) as i64 - 1) as u32,
    };
    random.one_of(&[about, about, about, about, 0, 1, any, u32::MAX])
}
