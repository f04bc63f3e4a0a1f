//! Reading by document 01's definitions: what a field or word is gets decided from the bits that the naive writer would write.

pub mod fields;
mod interpolative;
mod item;
pub mod printed;
pub mod readers;
pub mod words;

#[cfg(test)]
mod cut_and_prefix;
#[cfg(test)]
mod words_by_search;
#[cfg(test)]
mod worked_readings;
