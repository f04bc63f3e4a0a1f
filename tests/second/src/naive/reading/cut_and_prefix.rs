//! The third demand on small lists: no record begins another, and a record that is stopped early is cut short.

use super::fields::Refusal;
use super::readers::{look_up, read, search, Read, Span};
use crate::naive::bits::{place, Bits};
use crate::naive::heading::{chosen, Code, Entry, Heading};
use crate::naive::kinds::{first_fault, Kind};
use crate::naive::record;

type Record = (Heading, Vec<i64>);

fn entry_of(kind: Kind) -> Entry {
    match kind {
        Kind::Corrections => Entry::Corrections,
        _ => Entry::Unsigned,
    }
}

/// Every heading with a few parameters.
fn headings() -> Vec<Heading> {
    let entries = [(Entry::Unsigned, 0), (Entry::Unsigned, 1), (Entry::Corrections, 2)];
    let mut headings = Vec::new();
    for (entry, kind) in entries {
        let parameters = [(1, 0), (2, 0), (3, 0), (3, 1), (3, 4), (3, 31), (4, 0), (5, 0)];
        headings.extend(parameters.iter().filter_map(|&(code, parameter)| chosen(entry, code, parameter, kind)));
    }
    headings
}

/// All lists without faults of at most so many values out of these.
fn records(longest: usize, values: &[i64]) -> Vec<Record> {
    let mut lists: Vec<Vec<i64>> = vec![vec![]];
    let mut shorter = 0;
    for _ in 0..longest {
        let these = shorter..lists.len();
        shorter = lists.len();
        for list in these {
            lists.extend(values.iter().map(|&value| [&lists[list][..], &[value]].concat()).collect::<Vec<_>>());
        }
    }
    let sound = |heading: Heading| lists.iter().filter(move |list| first_fault(heading.kind, list).is_none());
    headings().into_iter().flat_map(|heading| sound(heading).map(move |list| (heading, list.clone()))).collect()
}

fn bits(records: &[Record]) -> Bits {
    records.iter().flat_map(|(heading, values)| record::bits(*heading, values)).collect()
}

/// If the bits of one sequence begin those of another, its records are the first records of the other.
fn beginnings_are_first_records(sequences: Vec<Vec<Record>>) {
    let mut sorted: Vec<(Bits, Vec<Record>)> = sequences.into_iter().map(|records| (bits(&records), records)).collect();
    sorted.sort_by(|(one, _), (other, _)| one.cmp(other));
    for (at, (shorter, first)) in sorted.iter().enumerate() {
        // In sorted order those that begin with these bits follow at once.
        for (_, second) in sorted[at + 1..].iter().take_while(|(longer, _)| longer.starts_with(shorter)) {
            assert!(second.starts_with(first), "{first:?} begins {second:?}");
        }
    }
}

#[test]
fn no_record_begins_another() {
    let records = records(4, &[-2, -1, 0, 1, 2, 3, 200]);
    beginnings_are_first_records(records.into_iter().map(|record| vec![record]).collect());
}

#[test]
fn sequences_begin_with_the_same_records() {
    let records = records(1, &[-1, 0, 1, 2]);
    let mut sequences = vec![vec![]];
    for one in &records {
        sequences.push(vec![one.clone()]);
        for two in &records {
            sequences.push(vec![one.clone(), two.clone()]);
        }
    }
    beginnings_are_first_records(sequences);
}

/// Read back from among ones, and cut short at every earlier stop.
fn read_back_and_cut_short(heading: Heading, values: &[i64]) {
    let image = record::bits(heading, values);
    let (entry, kind, room) = (entry_of(heading.kind), heading.kind.number(), values.len());
    for start in [0, 3] {
        let mut bytes = vec![0xFF; (start + image.len()).div_ceil(8) + 1];
        place(&mut bytes, start, &image);
        let end = start + image.len();
        let span = |stop: usize| Span { bytes: &bytes, start: start as u64, stop: stop as u64 };
        for stop in start..end {
            let cut = |refusal: Option<Refusal>| assert_eq!(refusal.map(|refusal| refusal.answer), Some(6));
            cut(read(span(stop), entry, kind, room).err());
            cut(look_up(span(stop), entry, kind, 0).err());
            if heading.kind == Kind::Instants {
                cut(search(span(stop), 1).err());
            }
        }
        let whole = Read::Record { heading, values: values.to_vec(), next: end as u64 };
        assert_eq!(read(span(end), entry, kind, room), Ok(whole.clone()));
        assert_eq!(read(span(8 * bytes.len()), entry, kind, room), Ok(whole));
    }
}

#[test]
fn small_values() {
    for (heading, values) in records(3, &[-2, -1, 0, 1, 2, 9]) {
        read_back_and_cut_short(heading, &values);
    }
}

#[test]
fn values_at_the_ends() {
    let ends = [-2_147_483_647, -2_147_483_646, 0, 1, 2_147_483_647, 4_294_967_293, 4_294_967_294, 4_294_967_295];
    for (heading, values) in records(2, &ends) {
        if !matches!(heading.code, Code::Rice(0..=4)) {
            read_back_and_cut_short(heading, &values);
        }
    }
}
