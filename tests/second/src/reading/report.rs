//! A difference in reading in words, with all that is needed to repeat the call.

use super::answer::Answer;
use super::call::{Call, NAMES};
use super::comparison::Difference;
use crate::shown;
use second::naive::reading::readers::Span;

const MOST_SHOWN: usize = 16;

pub fn inputs(span: Span, call: Call) -> String {
    let (name, bytes) = (NAMES[call.number()], shown::bytes(span.bytes));
    format!("{name}: {call:?}\nstart {}, stop {}, {bytes}", span.start, span.stop)
}

pub fn difference(span: Span, difference: &Difference) -> String {
    let Difference { expected, got, bytes, beside_buffer, lending } = difference;
    let mut lines = vec![shown::lending(*lending)];
    lines.push(format!("expected: {}", numbers(&expected.answer)));
    lines.push(format!("got:      {}", numbers(&got.answer)));
    if bytes != span.bytes {
        lines.push(format!("the buffer was changed to {}", shown::bytes(bytes)));
    }
    if !beside_buffer.is_empty() {
        lines.push(format!("memory beside the buffer was written at its bytes {beside_buffer:?}"));
    }
    for (place, value) in got.list_faults.iter().take(MOST_SHOWN) {
        lines.push(match expected.values.get(*place) {
            Some(must) => format!("the list holds {value} at place {place}, it must hold {must}"),
            None => format!("the list was changed to {value} at place {place}"),
        });
    }
    if !got.beside_list.is_empty() {
        lines.push(format!("memory beside the list was written at its places {:?}", got.beside_list));
    }
    lines.join("\n")
}

fn numbers(answer: &Answer) -> String {
    format!("answer {}, told {}, then the fields {:?}", answer.answer, answer.told, answer.further)
}
