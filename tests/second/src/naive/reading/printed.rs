//! What the program prints of a stream, and nothing of a stream that the check refuses but the refusal.

use super::fields::{Cursor, Refusal};
use super::item::{item, Asked, Item};
use super::readers::check;
use crate::naive::bits::taken;
use crate::naive::heading::Heading;

pub fn printed(bytes: &[u8]) -> String {
    match check(bytes) {
        Ok(_) => records_and_end(bytes),
        Err(refusal) => refused(refusal),
    }
}

pub fn refused(refusal: Refusal) -> String {
    format!("refused {} {}\n", refusal.answer, refusal.told)
}

/// A record's line: code, kind, k, count and the values.
pub fn line(heading: Heading, values: &[i64]) -> String {
    let Heading { code, kind } = heading;
    let before = format!("{} {} {} {}", code.number(), kind.number(), code.parameter(), values.len());
    let values: String = values.iter().map(|value| format!(" {value}")).collect();
    before + &values + "\n"
}

fn records_and_end(bytes: &[u8]) -> String {
    let bits = taken(bytes, 8 * bytes.len());
    let mut cursor = Cursor::new(&bits, 0);
    let mut text = String::new();
    while let Ok(Item::Record(heading, values)) = item(&mut cursor, Asked::default()) {
        text += &line(heading, &values);
    }
    text + "end\n"
}
