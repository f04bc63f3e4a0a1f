//! How often each answer was seen, so that a run that never reached one is no pass.

use crate::case::{Call, Case};
use crate::rooms::length;
use second::naive::heading::Entry;
use second::naive::writer::Outcome;
use std::collections::BTreeMap;

const POSSIBLE: [(&str, &[u32]); 3] = [
    ("moortangle_write", &[0, 1, 2, 3, 4, 5, 12]),
    ("moortangle_write_corrections", &[0, 1, 2, 4, 5, 12]),
    ("moortangle_write_end", &[0, 5, 12]),
];

const WRITABLE: [(u32, &[u32]); 5] = [(1, &[0, 1, 2]), (2, &[0, 1, 2]), (3, &[0, 1, 2]), (4, &[0, 1, 2]), (5, &[1])];

/// How often records of one code and kind were written, filled their buffers, lacked a bit, or began at each bit of a byte.
#[derive(Default)]
struct Room {
    written: u64,
    full: u64,
    one_short: u64,
    begun: [u64; 8],
}

impl Room {
    fn complete(&self) -> bool {
        self.written > self.full && self.full > 0 && self.one_short > 0 && !self.begun.contains(&0)
    }
}

#[derive(Default)]
pub struct Tally {
    pub cases: u64,
    answers: BTreeMap<(&'static str, u32), u64>,
    written: BTreeMap<(u32, u32), Room>,
}

impl Tally {
    pub fn count(&mut self, case: &Case, outcome: &Outcome) {
        self.cases += 1;
        let name = match &case.call {
            Call::Write(request) if request.entry == Entry::Unsigned => POSSIBLE[0].0,
            Call::Write(_) => POSSIBLE[1].0,
            Call::End => POSSIBLE[2].0,
        };
        *self.answers.entry((name, outcome.answer)).or_default() += 1;
        if let Call::Write(request) = &case.call {
            let bits = 8 * case.bytes.len() as u64;
            let room = self.written.entry((request.code, request.kind)).or_default();
            room.written += u64::from(outcome.answer == 0);
            room.begun[(case.start % 8) as usize] += u64::from(outcome.answer == 0);
            room.full += u64::from(outcome.answer == 0 && outcome.told == bits);
            room.one_short += u64::from(outcome.answer == 5 && case.start + length(request) == bits + 1);
        }
    }

    pub fn summary(&self) -> String {
        let mut lines = Vec::new();
        for (name, answers) in POSSIBLE {
            let seen = answers.iter().map(|&answer| format!("{answer}: {}", self.seen(name, answer)));
            lines.push(format!("{name} answered {}", seen.collect::<Vec<_>>().join(", ")));
        }
        lines.join("\n")
    }

    /// What can happen and was never seen.
    pub fn missing(&self) -> Vec<String> {
        let mut missing = Vec::new();
        for (name, answers) in POSSIBLE {
            let unseen = answers.iter().filter(|&&answer| self.seen(name, answer) == 0);
            missing.extend(unseen.map(|answer| format!("{name} never answered {answer}")));
        }
        for (code, kinds) in WRITABLE {
            let unseen = kinds.iter().filter(|&&kind| !self.written.get(&(code, kind)).is_some_and(Room::complete));
            missing.extend(unseen.map(|kind| format!("code {code}, kind {kind}: some room or start was never tried")));
        }
        missing
    }

    fn seen(&self, name: &'static str, answer: u32) -> u64 {
        self.answers.get(&(name, answer)).copied().unwrap_or(0)
    }
}
