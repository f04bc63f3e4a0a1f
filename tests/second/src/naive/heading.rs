//! What a caller chooses for a record, judged from bare numbers.

use super::codes::WordCode;
use super::kinds::Kind;

/// Plain and instants share one entry, corrections have their own.
#[derive(Clone, Copy, Debug, PartialEq, Eq)]
pub enum Entry {
    Unsigned,
    Corrections,
}

impl Entry {
    /// The kind of this number, if this entry takes it.
    pub fn kind(self, number: u32) -> Option<Kind> {
        match (self, number) {
            (Entry::Unsigned, 0) => Some(Kind::Plain),
            (Entry::Unsigned, 1) => Some(Kind::Instants),
            (Entry::Corrections, 2) => Some(Kind::Corrections),
            _ => None,
        }
    }
}

#[derive(Clone, Copy, Debug, PartialEq, Eq)]
pub enum Code {
    Gamma,
    Delta,
    Rice(u32),
    VariableByte,
    Interpolative,
}

impl Code {
    pub fn number(self) -> u32 {
        match self {
            Code::Gamma => 1,
            Code::Delta => 2,
            Code::Rice(_) => 3,
            Code::VariableByte => 4,
            Code::Interpolative => 5,
        }
    }

    /// Rice's k, 0 for every other code.
    pub fn parameter(self) -> u32 {
        match self {
            Code::Rice(k) => k,
            _ => 0,
        }
    }

    /// The code of each word, if the body is the words in order.
    pub fn of_words(self) -> Option<WordCode> {
        match self {
            Code::Gamma => Some(WordCode::Gamma),
            Code::Delta => Some(WordCode::Delta),
            Code::Rice(k) => Some(WordCode::Rice(k)),
            Code::VariableByte => Some(WordCode::VariableByte),
            Code::Interpolative => None,
        }
    }
}

#[derive(Clone, Copy, Debug, PartialEq, Eq)]
pub struct Heading {
    pub code: Code,
    pub kind: Kind,
}

/// The heading these numbers choose, or nothing where the writer says 4.
pub fn chosen(entry: Entry, code: u32, parameter: u32, kind: u32) -> Option<Heading> {
    let code = match code {
        1 => Code::Gamma,
        2 => Code::Delta,
        3 if parameter <= 31 => Code::Rice(parameter),
        4 => Code::VariableByte,
        5 => Code::Interpolative,
        _ => return None,
    };
    let kind = entry.kind(kind)?;
    if code == Code::Interpolative && kind != Kind::Instants {
        return None;
    }
    Some(Heading { code, kind })
}
