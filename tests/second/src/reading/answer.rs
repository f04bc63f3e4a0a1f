//! The structs that come back from the readers, as one.

use crate::exported_readers::{
    moortangle_correction, moortangle_place, moortangle_record, moortangle_stream, moortangle_value,
};
use second::naive::heading::Heading;
use second::naive::reading::fields::Refusal;
use second::naive::reading::readers::Totals;

/// All fields in their order; the further ones that a struct lacks are 0, as they are with a refusal.
#[derive(Clone, Copy, Debug, PartialEq, Eq)]
pub struct Answer {
    pub answer: u32,
    pub told: u64,
    pub further: [i64; 5],
}

impl Answer {
    pub fn refused(refusal: Refusal) -> Answer {
        Answer { answer: refusal.answer, told: refusal.told, further: [0; 5] }
    }

    pub fn record(next: u64, heading: Heading, count: usize) -> Answer {
        let numbers = [heading.code.number(), heading.kind.number(), heading.code.parameter(), count as u32];
        let [code, kind, parameter, count] = numbers.map(i64::from);
        Answer { answer: 0, told: next, further: [0, code, kind, parameter, count] }
    }

    pub fn end(next: u64) -> Answer {
        Answer { answer: 0, told: next, further: [1, 0, 0, 0, 0] }
    }

    pub fn number(number: i64) -> Answer {
        Answer { answer: 0, told: 0, further: [number, 0, 0, 0, 0] }
    }

    pub fn totals(totals: Totals) -> Answer {
        Answer { answer: 0, told: 0, further: [totals.records as i64, totals.values as i64, 0, 0, 0] }
    }

    /// Whether a reader tells of a record and not of a refusal or the end mark.
    pub fn is_record(&self) -> bool {
        self.answer == 0 && self.further[0] == 0
    }
}

impl From<moortangle_record> for Answer {
    fn from(record: moortangle_record) -> Answer {
        let fields = [record.end, record.code, record.kind, record.parameter, record.count];
        Answer { answer: record.answer, told: record.told, further: fields.map(i64::from) }
    }
}

impl From<moortangle_value> for Answer {
    fn from(value: moortangle_value) -> Answer {
        Answer { answer: value.answer, told: value.told, further: [i64::from(value.value), 0, 0, 0, 0] }
    }
}

impl From<moortangle_correction> for Answer {
    fn from(value: moortangle_correction) -> Answer {
        Answer { answer: value.answer, told: value.told, further: [i64::from(value.value), 0, 0, 0, 0] }
    }
}

impl From<moortangle_place> for Answer {
    fn from(place: moortangle_place) -> Answer {
        Answer { answer: place.answer, told: place.told, further: [place.below as i64, 0, 0, 0, 0] }
    }
}

impl From<moortangle_stream> for Answer {
    fn from(stream: moortangle_stream) -> Answer {
        let further = [stream.records as i64, stream.values as i64, 0, 0, 0];
        Answer { answer: stream.answer, told: stream.told, further }
    }
}
