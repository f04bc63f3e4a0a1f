//! Streams with what the program prints of them, for whoever writes another implementation.

mod bad_words;
mod codes_and_kinds;
mod cut;
mod ends;
mod folder;
mod headings;
mod largest_values;
mod lengths;
mod lists;
mod maker;
mod readme;
mod values;
mod worked;

#[cfg(test)]
mod complete;

pub use folder::{differences, make};

use maker::Cases;

/// A stream and the text that the program prints of it.
pub struct Case {
    pub name: String,
    pub shows: String,
    pub bytes: Vec<u8>,
    pub printed: String,
}

pub struct Group {
    pub title: &'static str,
    pub cases: Vec<Case>,
}

type Maker = fn(&mut Cases);

const MAKERS: [(&str, Maker); 10] = [
    ("Document 01's own streams", worked::make),
    ("Each code with each kind", codes_and_kinds::make),
    ("Lists of instants in code 5, and several records", lists::make),
    ("The largest and the smallest values", largest_values::make),
    ("Long lists and long streams; 8 and 12", lengths::make),
    ("End mark and padding; 11", ends::make),
    ("Cut short; 6", cut::make),
    ("Code and kind; 7", headings::make),
    ("Bad words and offsets; 9", bad_words::make),
    ("Values out of range; 10", values::make),
];

pub fn groups() -> Vec<Group> {
    let made = |(title, maker): (&'static str, Maker)| {
        let mut cases = Cases::default();
        maker(&mut cases);
        Group { title, cases: cases.made }
    };
    MAKERS.map(made).into()
}
