//! A difference in words, with all that is needed to repeat the call.

use crate::case::{Call, Case, Difference};
use crate::guarded::Lending;
use crate::shown::{self, runs};
use second::naive::heading::Entry;
use second::naive::writer::Outcome;

const MOST_SHOWN: usize = 16;

pub fn report(case: &Case, lending: Lending, difference: &Difference) -> String {
    let Difference { expected, got } = difference;
    let mut lines = inputs(case, lending);
    lines.push(format!("expected: {}", numbers(expected)));
    lines.push(format!("got:      {}", numbers(&got.outcome)));
    lines.extend(changed_bytes(case, expected, &got.outcome));
    if !got.beside_buffer.is_empty() {
        lines.push(format!("memory beside the buffer was written at its bytes {:?}", got.beside_buffer));
    }
    if !got.beside_values.is_empty() {
        lines.push(format!("memory beside the values was written at their places {:?}", got.beside_values));
    }
    if got.values != case.values() {
        lines.push(format!("the values were changed to {}", runs(got.values.iter())));
    }
    lines.join("\n")
}

fn inputs(case: &Case, lending: Lending) -> Vec<String> {
    let mut lines = match &case.call {
        Call::Write(request) => vec![
            format!(
                "{}: code {}, parameter {}, kind {}",
                match request.entry {
                    Entry::Unsigned => "moortangle_write",
                    Entry::Corrections => "moortangle_write_corrections",
                },
                request.code,
                request.parameter,
                request.kind
            ),
            format!("{} values: {}", request.values.len(), runs(request.values.iter())),
        ],
        Call::End => vec!["moortangle_write_end".to_owned()],
    };
    lines.push(format!("start {}, {}", case.start, shown::bytes(&case.bytes)));
    lines.push(shown::lending(lending));
    lines
}

fn numbers(outcome: &Outcome) -> String {
    format!("answer {}, told {}", outcome.answer, outcome.told)
}

fn changed_bytes(case: &Case, expected: &Outcome, got: &Outcome) -> Vec<String> {
    let places: Vec<usize> = (0..case.bytes.len()).filter(|&at| expected.bytes[at] != got.bytes[at]).collect();
    let mut lines = vec![format!("bytes that differ: {}", places.len())];
    for &at in places.iter().take(MOST_SHOWN) {
        lines.push(format!(
            "  byte {at}: before {:08b}, expected {:08b}, got {:08b}",
            case.bytes[at], expected.bytes[at], got.bytes[at]
        ));
    }
    lines
}
