//! The readers' whole answers: reader, look-up, search and stream check.

use super::fields::{Cursor, Refusal};
use super::item::{item, Asked, Item};
use crate::naive::bits::{taken, Bits};
use crate::naive::heading::{Entry, Heading};
use crate::naive::kinds::Kind;
use crate::naive::MOST_BYTES;

/// A buffer with the start and the stop that a reader gets.
#[derive(Clone, Copy)]
pub struct Span<'a> {
    pub bytes: &'a [u8],
    pub start: u64,
    pub stop: u64,
}

#[derive(Clone, Debug, PartialEq, Eq)]
pub enum Read {
    Record { heading: Heading, values: Vec<i64>, next: u64 },
    End { next: u64 },
}

#[derive(Clone, Copy, Debug, PartialEq, Eq)]
pub struct Totals {
    pub records: u64,
    pub values: u64,
}

pub fn read(span: Span, entry: Entry, kind: u32, room: usize) -> Result<Read, Refusal> {
    let bits = span.bits()?;
    let asked = Asked { kind: Some(asked_kind(entry, kind)?), room: Some(room) };
    let mut cursor = Cursor::new(&bits, span.start as usize);
    let item = item(&mut cursor, asked)?;
    let next = cursor.at();
    Ok(match item {
        Item::Record(heading, values) => Read::Record { heading, values, next },
        Item::End => Read::End { next },
    })
}

pub fn look_up(span: Span, entry: Entry, kind: u32, place: u64) -> Result<i64, Refusal> {
    let bits = span.bits()?;
    let values = whole_list(&bits, span.start, asked_kind(entry, kind)?)?;
    let at = usize::try_from(place).ok();
    at.and_then(|at| values.get(at)).copied().ok_or(Refusal { answer: 13, told: 0 })
}

/// How many instants are below the one sought.
pub fn search(span: Span, instant: u32) -> Result<u64, Refusal> {
    let bits = span.bits()?;
    let values = whole_list(&bits, span.start, Kind::Instants)?;
    Ok(values.iter().filter(|&&value| value < i64::from(instant)).count() as u64)
}

pub fn check(bytes: &[u8]) -> Result<Totals, Refusal> {
    let bits = Span { bytes, start: 0, stop: 8 * bytes.len() as u64 }.bits()?;
    let mut cursor = Cursor::new(&bits, 0);
    let mut totals = Totals { records: 0, values: 0 };
    while let Item::Record(_, values) = item(&mut cursor, Asked::default())? {
        totals.records += 1;
        totals.values += values.len() as u64;
    }
    let padding = cursor.rest();
    if padding.len() >= 8 || padding.contains(&true) {
        return Err(Refusal { answer: 11, told: cursor.at() });
    }
    Ok(totals)
}

impl Span<'_> {
    /// The bits up to the stop, or 12.
    fn bits(self) -> Result<Bits, Refusal> {
        let in_order = self.start <= self.stop && self.stop <= 8 * self.bytes.len() as u64;
        if self.bytes.len() > MOST_BYTES || !in_order {
            return Err(Refusal { answer: 12, told: 0 });
        }
        Ok(taken(self.bytes, self.stop as usize))
    }
}

fn asked_kind(entry: Entry, kind: u32) -> Result<Kind, Refusal> {
    entry.kind(kind).ok_or(Refusal { answer: 7, told: 0 })
}

/// The list for look-up and search, for which an end mark is refused at the code.
fn whole_list(bits: &[bool], start: u64, kind: Kind) -> Result<Vec<i64>, Refusal> {
    match item(&mut Cursor::new(bits, start as usize), Asked { kind: Some(kind), room: None })? {
        Item::Record(_, values) => Ok(values),
        Item::End => Err(Refusal { answer: 7, told: start }),
    }
}
