//! Inputs in words, for the reports of both halves.

use crate::guarded::Lending;
use std::fmt::Display;

pub fn bytes(bytes: &[u8]) -> String {
    let hex = bytes.iter().map(|byte| format!("{byte:02X}"));
    format!("{} bytes: {}", bytes.len(), runs(hex))
}

pub fn lending(lending: Lending) -> String {
    format!(
        "guard {:02X}, {} elements of it in front, an empty slice is {}",
        lending.guard,
        lending.front,
        if lending.null { "null" } else { "not null" }
    )
}

/// All items in order, with repeated ones as "item x times" so that long lists stay readable.
pub fn runs<T: Display + PartialEq>(items: impl Iterator<Item = T>) -> String {
    let mut runs: Vec<(T, usize)> = Vec::new();
    for item in items {
        match runs.last_mut() {
            Some((last, times)) if *last == item => *times += 1,
            _ => runs.push((item, 1)),
        }
    }
    let words = runs.iter().map(|(item, times)| match times {
        1 => item.to_string(),
        _ => format!("({item} x {times})"),
    });
    words.collect::<Vec<_>>().join(" ")
}
