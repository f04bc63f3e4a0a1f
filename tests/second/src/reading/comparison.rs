//! Calls made on both sides, and the end of the run at the first difference.

use super::boundary::{self, Got};
use super::call::{Call, Expected};
use super::report;
use super::tally::Tally;
use crate::guarded::{Guarded, Lending};
use second::naive::reading::readers::Span;
use std::process::exit;

pub struct Comparison {
    pub seed: u64,
    pub tally: Tally,
}

/// All that the library did, to be held against what it must do.
pub struct Difference {
    pub expected: Expected,
    pub got: Got,
    pub bytes: Vec<u8>,
    pub beside_buffer: Vec<isize>,
    pub lending: Lending,
}

impl Comparison {
    /// What both sides answer.
    pub fn agreed(&mut self, span: Span, call: Call) -> Expected {
        let expected = call.expected(span);
        self.same(span, &[(call, expected.clone())]);
        expected
    }

    /// Makes these calls on one buffer, each of which must do what is expected of it and leave the buffer as it is.
    pub fn same(&mut self, span: Span, calls: &[(Call, Expected)]) {
        let lending = Lending::of_case(self.tally.cases);
        let mut buffer = Guarded::new(span.bytes, lending.guard, lending);
        for (call, expected) in calls {
            let lending = Lending { filling: self.tally.cases as u32, ..lending };
            let got = boundary::call(*call, &mut buffer, (span.start, span.stop), lending, &expected.values);
            let list_kept = got.list_faults.is_empty() && got.beside_list.is_empty();
            let buffer_kept = buffer.lent() == span.bytes && buffer.is_intact();
            if got.answer != expected.answer || !list_kept || !buffer_kept {
                let (bytes, beside_buffer) = (buffer.lent().to_vec(), buffer.disturbed());
                let difference = Difference { expected: expected.clone(), got, bytes, beside_buffer, lending };
                self.fail(span, *call, &report::difference(span, &difference));
            }
            self.tally.count(*call, &expected.answer);
        }
    }

    /// Ends the run unless what must follow from the demands does.
    pub fn demand(&self, holds: bool, span: Span, call: Call, what: &str) {
        if !holds {
            self.fail(span, call, what);
        }
    }

    fn fail(&self, span: Span, call: Call, what: &str) -> ! {
        println!("DIFFERENCE in reading case {}, seed {}", self.tally.cases, self.seed);
        println!("{}\n{what}", report::inputs(span, call));
        exit(1);
    }
}
