//! Cases from lists of records, and refused ones from those by a small damage.

use super::Case;
use crate::naive::bits::{of_text, place, Bits};
use crate::naive::heading::{Code, Entry};
use crate::naive::kinds::Kind;
use crate::naive::reading::fields::Refusal;
use crate::naive::reading::printed::{self, line, printed};
use crate::naive::record;
use crate::naive::writer::{write, write_end, Outcome, Request};
use crate::naive::MOST_BYTES;

pub fn plain(code: Code, values: &[i64]) -> Request {
    of_kind(code, Kind::Plain, values)
}

pub fn instants(code: Code, values: &[i64]) -> Request {
    of_kind(code, Kind::Instants, values)
}

pub fn corrections(code: Code, values: &[i64]) -> Request {
    of_kind(code, Kind::Corrections, values)
}

pub fn of_kind(code: Code, kind: Kind, values: &[i64]) -> Request {
    let entry = if kind == Kind::Corrections { Entry::Corrections } else { Entry::Unsigned };
    Request { entry, code: code.number(), parameter: code.parameter(), kind: kind.number(), values: values.to_vec() }
}

pub fn refused(answer: u32, told: u64) -> Refusal {
    Refusal { answer, told }
}

/// Bytes that hold these bits, and zeros to the last byte's end.
pub fn padded(bits: &[bool]) -> Vec<u8> {
    let mut bytes = vec![0; bits.len().div_ceil(8)];
    place(&mut bytes, 0, bits);
    bytes
}

/// A plain gamma record of these values, then these bits, with which a byte ends.
pub fn at_the_end(before: &[i64], text: &str) -> Vec<u8> {
    let bits = [bits_of(&[plain(Code::Gamma, before)]), of_text(text)].concat();
    assert!(bits.len().is_multiple_of(8), "the stream does not end with these bits");
    padded(&bits)
}

/// The bits of records without an end mark.
pub fn bits_of(records: &[Request]) -> Bits {
    let bits = |record: &Request| {
        let heading = record.judged().expect("a case's record has no fault");
        record::bits(heading, &record.values)
    };
    records.iter().flat_map(bits).collect()
}

/// The stream that the writers make, in a buffer of ones so that every zero must be written too.
fn stream(records: &[Request]) -> Vec<u8> {
    let mut at = Outcome { answer: 0, told: 0, bytes: vec![0xFF; MOST_BYTES] };
    for record in records {
        at = write(&at.bytes, at.told, record);
        assert_eq!(at.answer, 0, "a case's record is not written");
    }
    at = write_end(&at.bytes, at.told);
    assert_eq!(at.answer, 0, "a case's end mark is not written");
    at.bytes[..at.told as usize / 8].to_vec()
}

fn line_of(record: &Request) -> String {
    line(record.judged().expect("a case's record has no fault"), &record.values)
}

#[derive(Default)]
pub struct Cases {
    pub made: Vec<Case>,
}

impl Cases {
    /// The stream of these records; refused ones may be made from it.
    pub fn accepted(&mut self, name: &str, shows: &str, records: &[Request]) -> Accepted<'_> {
        let bytes = stream(records);
        let lines: String = records.iter().map(line_of).collect();
        self.add(name.to_owned(), shows.to_owned(), bytes.clone(), lines + "end\n");
        Accepted { cases: self, name: name.to_owned(), bytes }
    }

    /// A stream that is refused, with no accepted one beside it.
    pub fn refused(&mut self, refusal: Refusal, what: &str, shows: &str, bytes: Vec<u8>) {
        let name = format!("refused-{}-{what}", refusal.answer);
        self.add(name, shows.to_owned(), bytes, printed::refused(refusal));
    }

    /// What is expected was told by whoever made the stream, so the reader must agree.
    fn add(&mut self, name: String, shows: String, bytes: Vec<u8>, expected: String) {
        let printed = printed(&bytes);
        assert_eq!(printed, expected, "{name}: the reader does not agree");
        self.made.push(Case { name, shows, bytes, printed });
    }
}

/// An accepted stream, to be damaged into refused ones.
pub struct Accepted<'a> {
    cases: &'a mut Cases,
    name: String,
    bytes: Vec<u8>,
}

impl Accepted<'_> {
    /// The number of its bytes.
    pub fn length(&self) -> usize {
        self.bytes.len()
    }

    /// With one bit turned.
    pub fn turned(self, bit: usize, refusal: Refusal, what: &str, shows: &str) -> Self {
        let mut bytes = self.bytes.clone();
        bytes[bit / 8] ^= 128 >> (bit % 8);
        self.damaged(&format!("with bit {bit} turned"), refusal, what, shows, bytes)
    }

    /// With only so many bytes left.
    pub fn cut(self, left: usize, refusal: Refusal, what: &str, shows: &str) -> Self {
        let bytes = self.bytes[..left].to_vec();
        let damage = format!("cut to {left} of its {} bytes", self.length());
        self.damaged(&damage, refusal, what, shows, bytes)
    }

    /// With a further byte.
    pub fn followed(self, byte: u8, refusal: Refusal, what: &str, shows: &str) -> Self {
        let bytes = [&self.bytes[..], &[byte]].concat();
        self.damaged(&format!("followed by {byte:02X}"), refusal, what, shows, bytes)
    }

    fn damaged(self, damage: &str, refusal: Refusal, what: &str, shows: &str, bytes: Vec<u8>) -> Self {
        let shows = format!("{shows}: {} {damage}", self.name);
        self.cases.refused(refusal, what, &shows, bytes);
        self
    }
}
