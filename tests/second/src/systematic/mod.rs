//! Inputs chosen by rule, so that no edge depends on luck.

mod ends;
mod headings;
mod long_lists;
mod order;
mod positions;
mod small_lists;
mod values;

use crate::case::{Call, Case};
use crate::rooms::{background, length, rooms};
use second::naive::heading::Entry;
use second::naive::writer::Request;
use second::random::Random;

pub fn run(random: &mut Random, each: &mut dyn FnMut(Case)) {
    let mut cases = Cases { random, each };
    headings::run(&mut cases);
    order::run(&mut cases);
    positions::run(&mut cases);
    small_lists::run(&mut cases);
    values::run(&mut cases);
    long_lists::run(&mut cases);
    ends::run(&mut cases);
}

/// Hands each case on; what is not chosen by rule is drawn, so that it cannot run in step with what is.
struct Cases<'a> {
    random: &'a mut Random,
    each: &'a mut dyn FnMut(Case),
}

impl Cases<'_> {
    fn write(&mut self, bytes: usize, start: u64, request: &Request) {
        let look = self.random.number();
        let bytes = background(look, bytes, self.random);
        (self.each)(Case { bytes, start, call: Call::Write(request.clone()) });
    }

    fn end_on_every_background(&mut self, bytes: usize, start: u64) {
        for look in 0..3 {
            let bytes = background(look, bytes, self.random);
            (self.each)(Case { bytes, start, call: Call::End });
        }
    }

    fn in_all_rooms(&mut self, request: &Request) {
        let start = self.start_in_byte();
        for (bytes, start) in rooms(length(request), start) {
            self.write(bytes, start, request);
        }
    }

    fn start_in_byte(&mut self) -> u64 {
        self.random.between(0, 7)
    }
}

fn entry_of(kind: u32) -> Entry {
    match kind {
        2 => Entry::Corrections,
        _ => Entry::Unsigned,
    }
}

/// The list in every code that takes its kind, Rice with each of these parameters.
fn in_every_code(kind: u32, values: &[i64], ks: impl Iterator<Item = u32>) -> Vec<Request> {
    let request = |code, parameter| Request { entry: entry_of(kind), code, parameter, kind, values: values.to_vec() };
    let mut requests = vec![request(1, 0), request(2, 0), request(4, 0)];
    if kind == 1 {
        requests.push(request(5, 0));
    }
    requests.extend(ks.map(|k| request(3, k)));
    requests
}
