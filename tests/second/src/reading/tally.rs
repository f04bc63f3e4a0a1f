//! How often each reader gave each answer, so that a run that never reached one is no pass.

use super::answer::Answer;
use super::call::{Call, NAMES};
use std::collections::BTreeMap;

/// Which answers each function can give, in the order of its names.
const POSSIBLE: [&[u32]; 6] = [
    &[0, 5, 6, 7, 8, 9, 10, 12],
    &[0, 5, 6, 7, 8, 9, 10, 12],
    &[0, 6, 7, 8, 9, 10, 12, 13],
    &[0, 6, 7, 8, 9, 10, 12, 13],
    &[0, 6, 7, 8, 9, 10, 12],
    &[0, 6, 7, 8, 9, 10, 11, 12],
];

#[derive(Default)]
pub struct Tally {
    pub cases: u64,
    answers: [[u64; 14]; 6],
    ends: [u64; 2],
    /// Records of two values and more by code, kind and parameter.
    records: BTreeMap<[i64; 3], u64>,
}

impl Tally {
    pub fn count(&mut self, call: Call, answer: &Answer) {
        self.cases += 1;
        self.answers[call.number()][answer.answer as usize] += 1;
        if let (Call::Read { .. }, 0) = (call, answer.answer) {
            let [end, code, kind, parameter, count] = answer.further;
            self.ends[call.number()] += u64::from(end == 1);
            if count >= 2 {
                *self.records.entry([code, kind, parameter]).or_default() += 1;
            }
        }
    }

    pub fn add(&mut self, other: &Tally) {
        self.cases += other.cases;
        for (mine, others) in self.answers.iter_mut().zip(&other.answers) {
            add(mine, others);
        }
        add(&mut self.ends, &other.ends);
        for (&heading, times) in &other.records {
            *self.records.entry(heading).or_default() += times;
        }
    }

    pub fn summary(&self) -> String {
        let mut lines = Vec::new();
        for (name, answers) in NAMES.iter().zip(self.answers) {
            let seen = answers.iter().enumerate().filter(|(_, &times)| times > 0);
            let seen = seen.map(|(answer, times)| format!("{answer}: {times}"));
            lines.push(format!("{name} answered {}", seen.collect::<Vec<_>>().join(", ")));
        }
        lines.join("\n")
    }

    /// What can happen and was never seen.
    pub fn missing(&self) -> Vec<String> {
        let mut missing = Vec::new();
        for (function, answers) in POSSIBLE.iter().enumerate() {
            let unseen = answers.iter().filter(|&&answer| self.answers[function][answer as usize] == 0);
            missing.extend(unseen.map(|answer| format!("{} never answered {answer}", NAMES[function])));
        }
        for (function, _) in self.ends.iter().enumerate().filter(|(_, &times)| times == 0) {
            missing.push(format!("{} never told of an end", NAMES[function]));
        }
        let unread = headings().into_iter().filter(|heading| !self.records.contains_key(heading));
        missing.extend(
            unread.map(|[code, kind, k]| format!("no list of code {code}, kind {kind}, parameter {k} was read")),
        );
        missing
    }
}

fn add(sums: &mut [u64], numbers: &[u64]) {
    for (sum, number) in sums.iter_mut().zip(numbers) {
        *sum += number;
    }
}

/// Every code, kind and parameter that a record can have.
fn headings() -> Vec<[i64; 3]> {
    let mut headings = vec![[5, 1, 0]];
    for kind in 0..=2 {
        headings.extend([[1, kind, 0], [2, kind, 0], [4, kind, 0]]);
        headings.extend((0..=31).map(|k| [3, kind, k]));
    }
    headings
}
