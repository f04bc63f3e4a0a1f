//! Records of every code, kind and parameter, read where they stand, and stopped at every earlier bit.

use super::call::Call;
use super::calls::{every_entry, instant, place, room, KINDS};
use super::cases::Cases;
use super::placed::Placed;
use crate::lists;
use second::naive::heading::{chosen, Entry, Heading};
use second::naive::kinds::Kind;
use second::naive::reading::readers::Span;
use second::naive::record;
use second::random::Random;

const FAR_PLACES: [u64; 6] = [1 << 31, u32::MAX as u64, 1 << 32, 1 << 63, u64::MAX - 1, u64::MAX];
const FAR_INSTANTS: [u32; 4] = [0, 1, u32::MAX - 1, u32::MAX];

/// How many stops are tried on a long record, of which the last are always among them.
const MOST_STOPS: u64 = 600;
const LAST_STOPS: u64 = 80;

pub struct Record {
    pub heading: Heading,
    pub values: Vec<i64>,
}

impl Record {
    pub fn entry(&self) -> Entry {
        entry_of(self.heading.kind.number())
    }

    pub fn kind(&self) -> u32 {
        self.heading.kind.number()
    }

    pub fn bits(&self) -> Vec<bool> {
        record::bits(self.heading, &self.values)
    }
}

pub fn entry_of(kind: u32) -> Entry {
    match kind {
        2 => Entry::Corrections,
        _ => Entry::Unsigned,
    }
}

/// Every heading there is.
pub fn headings() -> Vec<Heading> {
    let mut headings = Vec::new();
    for kind in 0..=2 {
        let numbers = [(1, 0), (2, 0), (4, 0), (5, 0)].into_iter().chain((0..=31).map(|k| (3, k)));
        headings.extend(numbers.filter_map(|(code, parameter)| chosen(entry_of(kind), code, parameter, kind)));
    }
    headings
}

pub fn with_drawn_list(random: &mut Random, heading: Heading, count: u64) -> Record {
    let (code, kind) = (heading.code, heading.kind.number());
    let values = lists::values(random, kind, code.number(), code.parameter(), count);
    Record { heading, values }
}

pub fn drawn(random: &mut Random) -> Record {
    let heading = random.one_of(&headings());
    let heading = if random.once_in(8) { heading_of_interpolative() } else { heading };
    let count = random.one_of(&[0, 1, 2, 3, 3, 5, 9]);
    with_drawn_list(random, heading, count)
}

fn heading_of_interpolative() -> Heading {
    chosen(Entry::Unsigned, 5, 0, 1).expect("a valid heading")
}

/// Each heading with the shortest lists and some longer ones.
pub fn run(cases: &mut Cases) {
    for heading in headings() {
        for count in [0, 1, 2, 7] {
            let record = with_drawn_list(cases.random, heading, count);
            one(cases, &record);
        }
    }
    for count in [20, 40, 100, 300] {
        let record = with_drawn_list(cases.random, heading_of_interpolative(), count);
        one(cases, &record);
    }
}

pub fn one(cases: &mut Cases, record: &Record) {
    let placed = Placed::among_others(cases.random, &record.bits());
    whole(cases, record, &placed);
    every_kind(cases, record, &placed);
    for stop in stops(cases.random, &placed) {
        stopped(cases, record, placed.up_to(stop));
    }
}

/// Read with each room about the count, looked up at each place and searched about each value.
fn whole(cases: &mut Cases, record: &Record, placed: &Placed) {
    let (entry, kind, count) = (record.entry(), record.kind(), record.values.len());
    let span = placed.whole(cases.random);
    let read = Call::Read { entry, kind, room: count };
    let expected = cases.make(span, &[read]).remove(0);
    let read_back =
        expected.answer.is_record() && expected.values == record.values && expected.answer.told == placed.end;
    cases.comparison.demand(read_back, span, read, "the record is not read back");

    let rooms = (count.saturating_sub(1)..=count + 1).chain([0, count + 9]);
    let mut calls: Vec<Call> = rooms.map(|room| Call::Read { entry, kind, room }).collect();
    let places = (0..=count as u64 + 1).chain(FAR_PLACES).chain(FAR_PLACES.map(|far| far.wrapping_add(1)));
    calls.extend(places.map(|place| Call::LookUp { entry, kind, place }));
    if record.heading.kind == Kind::Instants {
        let about = record.values.iter().flat_map(|&value| [value - 1, value, value + 1]);
        calls.extend(about.map(|value| Call::Search { instant: value as u32 }));
    }
    calls.extend(FAR_INSTANTS.map(|instant| Call::Search { instant }));
    cases.make(span, &calls);
}

fn every_kind(cases: &mut Cases, record: &Record, placed: &Placed) {
    let span = placed.whole(cases.random);
    let mut calls = every_entry(cases.random, &record.values);
    for entry in [Entry::Unsigned, Entry::Corrections] {
        for kind in KINDS {
            calls.push(Call::Read { entry, kind, room: record.values.len() });
            calls.push(Call::LookUp { entry, kind, place: 0 });
        }
    }
    cases.make(span, &calls);
}

fn stops(random: &mut Random, placed: &Placed) -> Vec<u64> {
    let length = placed.end - placed.start;
    let kept =
        |stop: &u64| length <= MOST_STOPS || placed.end - stop <= LAST_STOPS || random.once_in(length / MOST_STOPS + 1);
    (placed.start..placed.end).filter(kept).collect()
}

/// A record that is stopped before its end is cut short, whatever is asked of it, if its kind is asked for.
fn stopped(cases: &mut Cases, record: &Record, span: Span) {
    let (entry, kind, count) = (record.entry(), record.kind(), record.values.len());
    let mut calls = vec![
        Call::Read { entry, kind, room: count + cases.random.between(0, 2) as usize },
        Call::LookUp { entry, kind, place: place(cases.random, count) },
    ];
    if record.heading.kind == Kind::Instants {
        calls.push(Call::Search { instant: instant(cases.random, &record.values) });
    }
    let answers = cases.make(span, &calls);
    for (&call, expected) in calls.iter().zip(answers) {
        cases.comparison.demand(
            expected.answer.answer == 6,
            span,
            call,
            "a record stopped before its end is not cut short",
        );
    }
    let other = cases.random.one_of(&KINDS);
    let room = room(cases.random, count);
    cases.make(span, &[Call::Read { entry, kind, room: count / 2 }, Call::Read { entry, kind: other, room }]);
}
