//! One call of a writer, and its comparison on both sides.

use crate::boundary;
use crate::exported::{moortangle_write, moortangle_write_corrections};
use crate::guarded::{Guarded, Lending};
use second::naive::heading::Entry;
use second::naive::writer::{write, write_end, Outcome, Request};

pub enum Call {
    Write(Request),
    End,
}

pub struct Case {
    pub bytes: Vec<u8>,
    pub start: u64,
    pub call: Call,
}

/// What the library did, with all lent memory and its surroundings.
pub struct Got {
    pub outcome: Outcome,
    pub beside_buffer: Vec<isize>,
    pub beside_values: Vec<isize>,
    pub values: Vec<i64>,
}

pub struct Difference {
    pub expected: Outcome,
    pub got: Got,
}

impl Case {
    /// The agreed outcome, or everything needed to report the difference.
    pub fn compare(&self, lending: Lending) -> Result<Outcome, Box<Difference>> {
        let expected = self.expected();
        let got = self.got(lending);
        let agreed = got.outcome == expected
            && got.beside_buffer.is_empty()
            && got.beside_values.is_empty()
            && got.values == self.values();
        if agreed {
            Ok(expected)
        } else {
            Err(Box::new(Difference { expected, got }))
        }
    }

    pub fn values(&self) -> &[i64] {
        match &self.call {
            Call::Write(request) => &request.values,
            Call::End => &[],
        }
    }

    fn expected(&self) -> Outcome {
        match &self.call {
            Call::Write(request) => write(&self.bytes, self.start, request),
            Call::End => write_end(&self.bytes, self.start),
        }
    }

    fn got(&self, lending: Lending) -> Got {
        let mut buffer = Guarded::new(&self.bytes, lending.guard, lending);
        let word = i32::from_ne_bytes([lending.guard; 4]);
        let (written, values, beside_values) = match &self.call {
            Call::Write(request) => {
                let numbers = [request.code, request.parameter, request.kind];
                match request.entry {
                    Entry::Unsigned => {
                        let mut list = Guarded::new(&narrowed::<u32>(&request.values), word as u32, lending);
                        let written = boundary::write(moortangle_write, &mut buffer, self.start, numbers, &mut list);
                        (written, widened(list.lent()), list.disturbed())
                    }
                    Entry::Corrections => {
                        let mut list = Guarded::new(&narrowed::<i32>(&request.values), word, lending);
                        let written =
                            boundary::write(moortangle_write_corrections, &mut buffer, self.start, numbers, &mut list);
                        (written, widened(list.lent()), list.disturbed())
                    }
                }
            }
            Call::End => (boundary::write_end(&mut buffer, self.start), vec![], vec![]),
        };
        let bytes = buffer.lent().to_vec();
        Got {
            outcome: Outcome { answer: written.answer, told: written.told, bytes },
            beside_buffer: buffer.disturbed(),
            beside_values,
            values,
        }
    }
}

fn narrowed<T: TryFrom<i64>>(values: &[i64]) -> Vec<T> {
    let narrow = |&value| T::try_from(value).ok().expect("a case's values fit its entry's type");
    values.iter().map(narrow).collect()
}

fn widened<T: Copy + Into<i64>>(values: &[T]) -> Vec<i64> {
    values.iter().map(|&value| value.into()).collect()
}
