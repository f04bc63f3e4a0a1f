//! One call of a reader, and what the naive readers answer to it.

use super::answer::Answer;
use second::naive::heading::Entry;
use second::naive::reading::readers::{check, look_up, read, search, Read, Span};

#[derive(Clone, Copy, Debug)]
pub enum Call {
    Read { entry: Entry, kind: u32, room: usize },
    LookUp { entry: Entry, kind: u32, place: u64 },
    Search { instant: u32 },
    Check,
}

/// The exported functions in the order of [`Call::number`].
pub const NAMES: [&str; 6] = [
    "moortangle_read",
    "moortangle_read_corrections",
    "moortangle_look_up",
    "moortangle_look_up_correction",
    "moortangle_search",
    "moortangle_check",
];

/// What must come back: every field, and the values at the front of the lent list.
#[derive(Clone, Debug, PartialEq, Eq)]
pub struct Expected {
    pub answer: Answer,
    pub values: Vec<i64>,
}

impl Call {
    pub fn number(self) -> usize {
        match self {
            Call::Read { entry: Entry::Unsigned, .. } => 0,
            Call::Read { entry: Entry::Corrections, .. } => 1,
            Call::LookUp { entry: Entry::Unsigned, .. } => 2,
            Call::LookUp { entry: Entry::Corrections, .. } => 3,
            Call::Search { .. } => 4,
            Call::Check => 5,
        }
    }

    pub fn expected(self, span: Span) -> Expected {
        let answer = match self {
            Call::Read { entry, kind, room } => match read(span, entry, kind, room) {
                Ok(Read::Record { heading, values, next }) => {
                    return Expected { answer: Answer::record(next, heading, values.len()), values };
                }
                Ok(Read::End { next }) => Answer::end(next),
                Err(refusal) => Answer::refused(refusal),
            },
            Call::LookUp { entry, kind, place } => {
                look_up(span, entry, kind, place).map_or_else(Answer::refused, Answer::number)
            }
            Call::Search { instant } => {
                search(span, instant).map_or_else(Answer::refused, |below| Answer::number(below as i64))
            }
            Call::Check => check(span.bytes).map_or_else(Answer::refused, Answer::totals),
        };
        Expected { answer, values: vec![] }
    }
}
