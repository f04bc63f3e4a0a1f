//! The reading entries. Each goes once over its record; only the reader keeps the values, in an array of its own until
//! the last one is judged.

use super::bit_reader::BitReader;
use super::heading::Kind;
use super::record::{self, heading, record, Asked, Found, Heading, NOT_ASKED};
use super::{Refusal, MOST_BYTES, MOST_VALUES};

const FEW_VALUES: usize = 64;

/// How many records a stream holds, and how many values they hold together.
#[derive(Clone, Copy, Debug, PartialEq, Eq)]
pub struct Totals {
    pub records: u64,
    pub values: u64,
}

pub fn read(buffer: &[u8], start: u64, stop: u64, kind: u32, list: &mut [u32]) -> Result<Found, Refusal> {
    let mut bits = bits_of(buffer, [start, stop])?;
    match heading(&mut bits, Asked { kind: Some(asked_kind(kind)?), room: list.len() })? {
        None => Ok(Found::End { next: bits.at() }),
        // To zero the longest array would take longer than to read a short record.
        Some(heading) if heading.count() <= FEW_VALUES => read_into(&mut bits, heading, &mut [0; FEW_VALUES], list),
        Some(heading) => read_into(&mut bits, heading, &mut [0; MOST_VALUES], list),
    }
}

/// Keeps the values until the last one is judged, and only then fills the lent list.
fn read_into(bits: &mut BitReader, heading: Heading, kept: &mut [u32], list: &mut [u32]) -> Result<Found, Refusal> {
    let found = record::list(bits, heading, &mut |place, value| kept[place] = value)?;
    list[..heading.count()].copy_from_slice(&kept[..heading.count()]);
    Ok(found)
}

pub fn look_up(buffer: &[u8], start: u64, stop: u64, kind: u32, place: u64) -> Result<u32, Refusal> {
    let mut found = None;
    read_list(buffer, [start, stop], kind, &mut |at, value| {
        if at as u64 == place {
            found = Some(value);
        }
    })?;
    found.ok_or(Refusal::untold(13))
}

pub fn search(buffer: &[u8], start: u64, stop: u64, instant: u32) -> Result<u64, Refusal> {
    let mut below = 0;
    read_list(buffer, [start, stop], Kind::Instants as u32, &mut |_, value| below += u64::from(value < instant))?;
    Ok(below)
}

pub fn check(buffer: &[u8]) -> Result<Totals, Refusal> {
    let stop = 8 * buffer.len() as u64;
    let mut bits = bits_of(buffer, [0, stop])?;
    let mut totals = Totals { records: 0, values: 0 };
    loop {
        let asked = Asked { kind: None, room: MOST_VALUES };
        match record(&mut bits, asked, &mut |_, _| ())? {
            Found::Record { count, .. } => {
                totals.records += 1;
                totals.values += u64::from(count);
            }
            Found::End { next } => {
                let padding = stop - next;
                return if padding < 8 && bits.zeros() == padding {
                    Ok(totals)
                } else {
                    Err(Refusal { answer: 11, told: next })
                };
            }
        }
    }
}

/// Tells a whole record's values, without a lent list that could be too short for them.
fn read_list(
    buffer: &[u8],
    [start, stop]: [u64; 2],
    kind: u32,
    tell: &mut impl FnMut(usize, u32),
) -> Result<(), Refusal> {
    let mut bits = bits_of(buffer, [start, stop])?;
    match record(&mut bits, Asked { kind: Some(asked_kind(kind)?), room: MOST_VALUES }, tell)? {
        Found::Record { .. } => Ok(()),
        Found::End { .. } => Err(Refusal { answer: NOT_ASKED, told: start }),
    }
}

fn asked_kind(number: u32) -> Result<Kind, Refusal> {
    Kind::numbered(number).filter(|&kind| kind != Kind::Corrections).ok_or(Refusal::untold(NOT_ASKED))
}

fn bits_of(buffer: &[u8], [start, stop]: [u64; 2]) -> Result<BitReader<'_>, Refusal> {
    if buffer.len() > MOST_BYTES || start > stop || stop > 8 * buffer.len() as u64 {
        return Err(Refusal::untold(12));
    }
    Ok(BitReader::new(buffer, start, stop))
}
