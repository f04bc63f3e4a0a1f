//! One kind of list, and a line for each code: the size of its records, and what each call takes beside a plain one.

use crate::timing::{checking, looking_up, reading, searching, shortest, writing, Subject};
use crate::{boundary, INSTANTS};
use bench::lists::Shape;
use bench::plain::{self, MOST_BYTES};

/// Several samples, so that nothing is timed on branches that the processor has learnt by heart.
const SAMPLES: usize = 16;
const RICE: u32 = 3;
const COLUMNS: [&str; 8] =
    ["bits per value", "written", "read", "checked", "looked up", "searched", "look-up / check", "search / check"];

/// Library / plain for writing, reading, checking, looking up and searching; then the library's look-up and search
/// beside its own check of the same record.
type Ratios = [f64; 7];

pub struct Table {
    shape: Shape,
    lists: Vec<Vec<u32>>,
    codes: [(String, [u32; 3]); 5],
}

impl Table {
    pub fn new(shape: Shape) -> Table {
        let lists: Vec<Vec<u32>> = (1..).take(SAMPLES * shape.lists_in_sample).map(shape.draw).collect();
        let k = best_k(&lists);
        let rice = format!("Rice, k = {k}");
        let codes = [(1, "gamma"), (2, "delta"), (RICE, &rice), (4, "variable-byte"), (5, "interpolative")];
        let codes = codes.map(|(code, name)| (name.to_owned(), [code, if code == RICE { k } else { 0 }, INSTANTS]));
        Table { shape, lists, codes }
    }

    pub fn name(&self) -> &str {
        self.shape.name
    }

    pub fn lists(&self) -> &[Vec<u32>] {
        &self.lists
    }

    pub fn headings(&self) -> [[u32; 3]; 5] {
        self.codes.each_ref().map(|(_, heading)| *heading)
    }

    /// Prints each line as soon as it is measured, and hands its ratios on.
    pub fn print(&self) -> [Ratios; 5] {
        print_row(self.name(), COLUMNS.into_iter().map(str::to_owned));
        println!("|---|{}", "---|".repeat(COLUMNS.len()));
        let ratios = self.codes.each_ref().map(|(name, heading)| {
            let ratios = self.ratios(*heading);
            let cells = [bits_per_value(*heading, &self.lists)].into_iter().chain(ratios);
            print_row(name, cells.map(|number| format!("{number:.2}")));
            ratios
        });
        println!();
        ratios
    }

    fn ratios(&self, heading: [u32; 3]) -> Ratios {
        let times = shortest(
            [
                &writing(boundary::write),
                &writing(plain::write),
                &reading(boundary::read),
                &reading(plain::read),
                &checking(boundary::check),
                &checking(plain::check),
                &looking_up(boundary::look_up),
                &looking_up(plain::look_up),
                &searching(boundary::search),
                &searching(plain::search),
            ],
            &subjects(heading, &self.lists),
            self.shape.lists_in_sample,
        );
        let [write, plain_write, read, plain_read, check, plain_check, look_up, plain_look_up, search, plain_search] =
            times;
        [
            write / plain_write,
            read / plain_read,
            check / plain_check,
            look_up / plain_look_up,
            search / plain_search,
            look_up / check,
            search / check,
        ]
    }
}

/// As a line of a Markdown table, for docs/BENCHMARKS.md.
fn print_row(name: &str, cells: impl Iterator<Item = String>) {
    let cells: Vec<String> = cells.zip(COLUMNS).map(|(cell, column)| format!("{cell:>0$}", column.len())).collect();
    println!("| {name:<13} | {} |", cells.join(" | "));
}

/// The lists as subjects, written at every start within a byte.
fn subjects(heading: [u32; 3], lists: &[Vec<u32>]) -> Vec<Subject> {
    lists.iter().zip(0..).map(|(list, at)| Subject::new(heading, list, at % 8)).collect()
}

/// The parameter that gives the fewest bits over all lists, as a caller of Rice would choose it.
fn best_k(lists: &[Vec<u32>]) -> u32 {
    let fitting = (0..=31).filter_map(|k| Some((total_bits([RICE, k, INSTANTS], lists)?, k)));
    let (_, k) = fitting.min().expect("k = 31 makes at most 33 bits of a word, so its records fit");
    k
}

fn bits_per_value(heading: [u32; 3], lists: &[Vec<u32>]) -> f64 {
    let values: usize = lists.iter().map(Vec::len).sum();
    let bits = total_bits(heading, lists).expect("the check before has written these records");
    bits as f64 / values as f64
}

/// The bits of all records, each with its heading, or nothing if one does not fit a buffer.
fn total_bits(heading: [u32; 3], lists: &[Vec<u32>]) -> Option<u64> {
    let mut buffer = vec![0; MOST_BYTES];
    lists.iter().map(|list| plain::write(&mut buffer, 0, heading, list).ok()).sum()
}
