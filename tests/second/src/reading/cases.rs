//! How the reading cases are made: on a buffer, on another that agrees between start and stop, and written again.

use super::call::{Call, Expected};
use super::comparison::Comparison;
use crate::case;
use crate::guarded::Lending;
use crate::rooms::{background, MOST_BYTES};
use second::naive::bits::{place, taken};
use second::naive::heading::Entry;
use second::naive::reading::readers::Span;
use second::naive::writer::Request;
use second::random::Random;

pub struct Cases<'a> {
    pub random: &'a mut Random,
    pub comparison: &'a mut Comparison,
}

impl Cases<'_> {
    /// Makes these calls, none of which is the stream check.
    pub fn make(&mut self, span: Span, calls: &[Call]) -> Vec<Expected> {
        let agreed: Vec<(Call, Expected)> = calls.iter().map(|&call| (call, call.expected(span))).collect();
        self.comparison.same(span, &agreed);
        if let Some(bytes) = self.twin(span) {
            // What the library answered on the first buffer it must answer on the second.
            self.comparison.same(Span { bytes: &bytes, ..span }, &agreed);
        }
        for (call, expected) in &agreed {
            if let Call::Read { entry, .. } = *call {
                if expected.answer.is_record() {
                    self.write_again(span, *call, entry, expected);
                }
            }
        }
        agreed.into_iter().map(|(_, expected)| expected).collect()
    }

    pub fn check(&mut self, bytes: &[u8]) -> Expected {
        self.comparison.agreed(Span { bytes, start: 0, stop: 0 }, Call::Check)
    }

    /// Another buffer that agrees from the start up to the stop and perhaps nowhere else, also in its length.
    fn twin(&mut self, span: Span) -> Option<Vec<u8>> {
        let bits = 8 * span.bytes.len() as u64;
        if span.bytes.len() > MOST_BYTES || span.start > span.stop || span.stop > bits {
            return None;
        }
        let fewest = span.stop.div_ceil(8);
        let length = self.random.between(fewest, (fewest + 9).min(MOST_BYTES as u64));
        let look = self.random.number();
        let mut bytes = background(look, length as usize, self.random);
        place(&mut bytes, span.start as usize, &between(span.bytes, span.start, span.stop));
        Some(bytes)
    }

    /// What was read, written by the library with the heading it told, must give the bits that were read.
    fn write_again(&mut self, span: Span, call: Call, entry: Entry, expected: &Expected) {
        let [_, code, kind, parameter, _] = expected.answer.further.map(|number| number as u32);
        let look = self.random.number();
        let bytes = background(look, span.bytes.len(), self.random);
        let request = Request { entry, code, parameter, kind, values: expected.values.clone() };
        let writing = case::Case { bytes, start: span.start, call: case::Call::Write(request) };
        let end = expected.answer.told;
        let again = match writing.compare(Lending::of_case(self.comparison.tally.cases)) {
            Ok(outcome) => {
                outcome.told == end && between(&outcome.bytes, span.start, end) == between(span.bytes, span.start, end)
            }
            Err(_) => false,
        };
        self.comparison.demand(again, span, call, "what is read here is written again as other bits");
    }
}

fn between(bytes: &[u8], start: u64, stop: u64) -> Vec<bool> {
    taken(bytes, stop as usize).split_off(start as usize)
}
