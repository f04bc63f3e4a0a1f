//! What a stream is made of: a record or the end mark, its fields judged as they come.

use super::fields::{Cursor, Refusal};
use super::interpolative;
use crate::naive::codes::WordCode;
use crate::naive::heading::{chosen, Code, Entry, Heading};
use crate::naive::kinds::Kind;
use crate::naive::MOST_VALUES;

pub enum Item {
    Record(Heading, Vec<i64>),
    End,
}

/// What the caller sets bounds to; the stream check sets none.
#[derive(Clone, Copy, Default)]
pub struct Asked {
    pub kind: Option<Kind>,
    pub room: Option<usize>,
}

pub fn item(cursor: &mut Cursor, asked: Asked) -> Result<Item, Refusal> {
    let Some(heading) = heading(cursor, asked.kind)? else {
        return Ok(Item::End);
    };
    let count = count(cursor, asked.room)?;
    let values = match heading.code.of_words() {
        Some(code) => in_words(cursor, code, heading.kind, count)?,
        None => interpolative::instants(cursor, count)?,
    };
    Ok(Item::Record(heading, values))
}

/// Code, kind and Rice's k, or nothing for the end mark.
fn heading(cursor: &mut Cursor, asked: Option<Kind>) -> Result<Option<Heading>, Refusal> {
    let code = cursor.fixed(4)?;
    match code.value {
        0 => return Ok(None),
        1..=5 => {}
        _ => return Err(code.refused(7)),
    }
    let kind = cursor.fixed(2)?;
    let entry = if kind.value == 2 { Entry::Corrections } else { Entry::Unsigned };
    let allowed = |heading: &Heading| asked.is_none_or(|asked| asked == heading.kind);
    let heading = chosen(entry, code.value as u32, 0, kind.value as u32).filter(allowed);
    let mut heading = heading.ok_or(kind.refused(7))?;
    if let Code::Rice(k) = &mut heading.code {
        *k = cursor.fixed(5)?.value as u32;
    }
    Ok(Some(heading))
}

fn count(cursor: &mut Cursor, room: Option<usize>) -> Result<usize, Refusal> {
    let word = cursor.word(WordCode::Gamma)?;
    let count = word.value as usize - 1;
    if count > MOST_VALUES {
        return Err(word.refused(8));
    }
    if room.is_some_and(|room| count > room) {
        return Err(word.refused(5));
    }
    Ok(count)
}

fn in_words(cursor: &mut Cursor, code: WordCode, kind: Kind, count: usize) -> Result<Vec<i64>, Refusal> {
    let mut values = Vec::new();
    for _ in 0..count {
        let word = cursor.word(code)?;
        let value = kind.value(&values, word.value);
        if !kind.in_range(value) {
            return Err(word.refused(10));
        }
        values.push(value);
    }
    Ok(values)
}
