//! All buffers of few bytes, between all bits.

use super::call::{Call, Expected};
use super::calls::{KINDS, OWN};
use super::cases::Cases;
use second::naive::heading::Entry;
use second::naive::reading::readers::Span;

/// Longer than any list in two bytes.
const ROOMY: usize = 16;
const FAR: [u64; 5] = [1 << 32, 1 << 61, (1 << 61) + 1, 1 << 63, u64::MAX];

pub fn run(cases: &mut Cases) {
    for bytes in 0..=2 {
        every_start_and_stop(cases, bytes);
        positions_outside_the_rule(cases, bytes);
    }
    for bytes in 0..=3 {
        for number in 0..1u64 << (8 * bytes) {
            cases.check(&in_bytes(number, bytes));
        }
    }
}

/// The bits between a start and a stop in a buffer of so many bits.
#[derive(Clone, Copy)]
struct Content {
    number: u64,
    length: u32,
    start: u32,
    bits: u32,
}

impl Content {
    fn span<'a>(&self, bytes: &'a [u8]) -> Span<'a> {
        Span { bytes, start: self.start.into(), stop: (self.start + self.length).into() }
    }

    /// Each buffer that has it there, the other bits being zeros in the first.
    fn buffers(self) -> impl Iterator<Item = Vec<u8>> {
        let behind = self.bits - self.length - self.start;
        (0..1u64 << (self.bits - self.length)).map(move |outside| {
            let (front, back) = (outside >> behind, outside % (1 << behind));
            in_bytes((front << self.length | self.number) << behind | back, self.bits / 8)
        })
    }
}

/// Takes each content between start and stop in turn, and asks the same of each buffer that has it there.
fn every_start_and_stop(cases: &mut Cases, bytes: u32) {
    let bits = 8 * bytes;
    for length in 0..=bits {
        for number in 0..1u64 << length {
            for start in 0..=bits - length {
                everywhere(cases, Content { number, length, start, bits });
            }
        }
    }
}

fn everywhere(cases: &mut Cases, content: Content) {
    let first = content.buffers().next().expect("one buffer at least");
    for call in foreign() {
        cases.comparison.agreed(content.span(&first), call);
    }
    let expected = own(cases, content.span(&first));
    for buffer in content.buffers() {
        cases.comparison.same(content.span(&buffer), &expected);
    }
}

/// The last bytes of the number, highest first.
fn in_bytes(number: u64, bytes: u32) -> Vec<u8> {
    number.to_be_bytes()[8 - bytes as usize..].to_vec()
}

/// Each entry asked for each of its kinds; only what has a list is asked for more than one room or place.
fn own(cases: &mut Cases, span: Span) -> Vec<(Call, Expected)> {
    let mut calls = Vec::new();
    for (entry, kind) in OWN {
        let roomy = Call::Read { entry, kind, room: ROOMY };
        let count = roomy.expected(span).values.len();
        calls.push(roomy);
        calls.push(Call::LookUp { entry, kind, place: cases.random.between(0, count as u64) });
        if count > 0 {
            calls.extend((0..=count).map(|room| Call::Read { entry, kind, room }));
            calls.extend((0..=count as u64).map(|place| Call::LookUp { entry, kind, place }));
        }
    }
    calls.push(Call::Search { instant: cases.random.of_bits(4) as u32 });
    calls.into_iter().map(|call| (call, call.expected(span))).collect()
}

/// Each entry asked for kinds that are not its own.
fn foreign() -> Vec<Call> {
    let foreign = |&(entry, kind): &(Entry, u32)| entry.kind(kind).is_none();
    every_kind().into_iter().filter(foreign).flat_map(|(entry, kind)| of_both_sorts(entry, kind)).collect()
}

fn every_kind() -> Vec<(Entry, u32)> {
    [Entry::Unsigned, Entry::Corrections].into_iter().flat_map(|entry| KINDS.map(|kind| (entry, kind))).collect()
}

fn of_both_sorts(entry: Entry, kind: u32) -> [Call; 2] {
    [Call::Read { entry, kind, room: 2 }, Call::LookUp { entry, kind, place: 0 }]
}

fn positions_outside_the_rule(cases: &mut Cases, bytes: u32) {
    let mut calls: Vec<Call> = every_kind().into_iter().flat_map(|(entry, kind)| of_both_sorts(entry, kind)).collect();
    calls.push(Call::Search { instant: 1 });
    let bits = u64::from(8 * bytes);
    let positions: Vec<u64> = (0..=bits + 9).chain(FAR).collect();
    for number in (0..1u64 << bits).step_by(if bytes == 2 { 1_021 } else { 1 }) {
        let buffer = in_bytes(number, bytes);
        for &start in &positions {
            for &stop in positions.iter().filter(|&&stop| start > stop || stop > bits) {
                cases.comparison.same(Span { bytes: &buffer, start, stop }, &refused(&calls, &buffer, start, stop));
            }
        }
    }
}

fn refused(calls: &[Call], bytes: &[u8], start: u64, stop: u64) -> Vec<(Call, Expected)> {
    calls.iter().map(|&call| (call, call.expected(Span { bytes, start, stop }))).collect()
}
