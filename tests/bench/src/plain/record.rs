//! A record, or the end mark in its place.

use super::bit_reader::BitReader;
use super::body::body;
use super::heading::{Code, Kind};
use super::words::gamma;
use super::{Refusal, MOST_VALUES};

const END_MARK: u32 = 0;
const ROOM_TOO_SMALL: u32 = 5;
pub const NOT_ASKED: u32 = 7;
const COUNT_TOO_LARGE: u32 = 8;

/// What a reader has found, and the bit after it.
#[derive(Clone, Copy, Debug, PartialEq, Eq)]
pub enum Found {
    /// Code, parameter and kind, and how many values.
    Record {
        heading: [u32; 3],
        count: u32,
        next: u64,
    },
    End {
        next: u64,
    },
}

/// What a reader takes; the stream check asks for no kind.
pub struct Asked {
    pub kind: Option<Kind>,
    pub room: usize,
}

/// What stands before a list.
#[derive(Clone, Copy)]
pub struct Heading {
    code: Code,
    kind: Kind,
    count: u32,
}

impl Heading {
    pub fn count(self) -> usize {
        self.count as usize
    }
}

pub fn record(bits: &mut BitReader, asked: Asked, tell: &mut impl FnMut(usize, u32)) -> Result<Found, Refusal> {
    match heading(bits, asked)? {
        Some(heading) => list(bits, heading, tell),
        None => Ok(Found::End { next: bits.at() }),
    }
}

/// The heading of a record, or nothing at the end mark.
pub fn heading(bits: &mut BitReader, asked: Asked) -> Result<Option<Heading>, Refusal> {
    let Some(code) = bits.field(code)? else {
        return Ok(None);
    };
    let kind = bits.field(|bits| kind(bits, code, asked.kind))?;
    let code = match code {
        Code::Rice(_) => Code::Rice(bits.field(|bits| bits.number(5))?),
        other => other,
    };
    let count = bits.field(|bits| count(bits, asked.room))?;
    Ok(Some(Heading { code, kind, count }))
}

/// The list after a heading.
pub fn list(bits: &mut BitReader, heading: Heading, tell: &mut impl FnMut(usize, u32)) -> Result<Found, Refusal> {
    let Heading { code, kind, count } = heading;
    body(bits, code, kind, count as usize, tell)?;
    Ok(Found::Record { heading: [code.number(), code.parameter(), kind as u32], count, next: bits.at() })
}

/// The code, still without Rice's parameter, or nothing at the end mark.
fn code(bits: &mut BitReader) -> Result<Option<Code>, u32> {
    let number = bits.number(4)?;
    if number == END_MARK {
        return Ok(None);
    }
    Code::numbered(number, 0).map(Some).ok_or(NOT_ASKED)
}

fn kind(bits: &mut BitReader, code: Code, asked: Option<Kind>) -> Result<Kind, u32> {
    let kind = Kind::numbered(bits.number(2)?);
    kind.filter(|&kind| code.takes(kind) && asked.is_none_or(|asked| asked == kind)).ok_or(NOT_ASKED)
}

fn count(bits: &mut BitReader, room: usize) -> Result<u32, u32> {
    let count = gamma(bits)? - 1;
    if count as usize > MOST_VALUES {
        return Err(COUNT_TOO_LARGE);
    }
    if count as usize > room {
        return Err(ROOM_TOO_SMALL);
    }
    Ok(count)
}
