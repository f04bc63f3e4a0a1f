//! A record's writer as one writes it in plain Rust, with the duties of moortangle_write: it judges the limits and the list,
//! counts the record's bits exactly, and only then writes those bits and no others.

use super::bit_writer::BitWriter;
use super::heading::{length, Code, Kind};
use super::{Refusal, LARGEST_INSTANT, MOST_BYTES, MOST_VALUES};

/// Answers the bit after the record.
pub fn write(buffer: &mut [u8], start: u64, heading: [u32; 3], values: &[u32]) -> Result<u64, Refusal> {
    let end = 8 * buffer.len() as u64;
    if buffer.len() > MOST_BYTES || start > end {
        return Err(Refusal::untold(12));
    }
    let (code, kind) = judge_heading(heading).ok_or(Refusal::untold(4))?;
    if values.len() > MOST_VALUES {
        return Err(Refusal::untold(1));
    }
    judge_values(kind, values)?;
    let bits = heading_bits(code, values.len()) + body_bits(code, kind, values);
    if bits > end - start {
        return Err(Refusal::untold(5));
    }
    let mut out = BitWriter::new(buffer, start);
    write_heading(&mut out, code, kind, values.len());
    write_body(&mut out, code, kind, values);
    out.finish();
    Ok(start + bits)
}

/// Corrections have a writer of their own.
fn judge_heading([code, parameter, kind]: [u32; 3]) -> Option<(Code, Kind)> {
    let kind = Kind::numbered(kind).filter(|&kind| kind != Kind::Corrections)?;
    let code = Code::numbered(code, parameter).filter(|code| code.takes(kind))?;
    Some((code, kind))
}

fn judge_values(kind: Kind, values: &[u32]) -> Result<(), Refusal> {
    let mut before = 0;
    for (place, &value) in values.iter().enumerate() {
        let in_range = if kind == Kind::Instants { value <= LARGEST_INSTANT } else { value >= 1 };
        if !in_range {
            return Err(Refusal { answer: 2, told: place as u64 });
        }
        if kind == Kind::Instants && value < before {
            return Err(Refusal { answer: 3, told: place as u64 });
        }
        before = value;
    }
    Ok(())
}

/// The words of a list that has been judged.
fn words(kind: Kind, values: &[u32]) -> impl Iterator<Item = u32> + '_ {
    let mut before = 0;
    values.iter().map(
        move |&value| {
            if kind == Kind::Instants {
                value - std::mem::replace(&mut before, value) + 1
            } else {
                value
            }
        },
    )
}

pub(super) fn heading_bits(code: Code, count: usize) -> u64 {
    let parameter_bits = if let Code::Rice(_) = code { 5 } else { 0 };
    4 + 2 + parameter_bits + gamma_bits(count as u32 + 1)
}

pub(super) fn body_bits(code: Code, kind: Kind, values: &[u32]) -> u64 {
    let words = words(kind, values);
    match code {
        Code::Gamma => words.map(gamma_bits).sum(),
        Code::Delta => words.map(delta_bits).sum(),
        Code::Rice(k) => words.map(|word| rice_bits(k, word)).sum(),
        Code::VariableByte => words.map(variable_byte_bits).sum(),
        Code::Interpolative => interpolative_bits(values),
    }
}

fn gamma_bits(word: u32) -> u64 {
    u64::from(2 * length(word) - 1)
}

pub(super) fn delta_bits(word: u32) -> u64 {
    gamma_bits(length(word)) + u64::from(length(word))
}

fn rice_bits(k: u32, word: u32) -> u64 {
    u64::from((word - 1) >> k) + 1 + u64::from(k)
}

fn variable_byte_bits(word: u32) -> u64 {
    u64::from(8 * groups(word))
}

fn groups(word: u32) -> u32 {
    length(word).div_ceil(7)
}

fn interpolative_bits(instants: &[u32]) -> u64 {
    let Some((&last, others)) = instants.split_last() else {
        return 0;
    };
    let mut bits = delta_bits(last + 1);
    for_each_offset(others, 0, last, &mut |_, width| bits += u64::from(width));
    bits
}

/// Visits the offsets of a part and their widths in the order of the record, middle, left, right.
///
/// With s = t + i the rules' bounds are low = `low` + l and hi = `high` + r, so the places cancel out: the offset is
/// t - `low`, and V - 1 is `high` - `low`, whose length is the fewest bits that hold V values.
pub(super) fn for_each_offset(part: &[u32], low: u32, high: u32, visit: &mut impl FnMut(u32, u32)) {
    if part.is_empty() {
        return;
    }
    let at = (part.len() - 1) / 2;
    let middle = part[at];
    visit(middle - low, length(high - low));
    for_each_offset(&part[..at], low, middle, visit);
    for_each_offset(&part[at + 1..], middle, high, visit);
}

fn write_heading(out: &mut BitWriter, code: Code, kind: Kind, count: usize) {
    out.number(code.number(), 4);
    out.number(kind as u32, 2);
    if let Code::Rice(k) = code {
        out.number(k, 5);
    }
    write_gamma(out, count as u32 + 1);
}

fn write_body(out: &mut BitWriter, code: Code, kind: Kind, values: &[u32]) {
    let words = words(kind, values);
    match code {
        Code::Gamma => words.for_each(|word| write_gamma(out, word)),
        Code::Delta => words.for_each(|word| write_delta(out, word)),
        Code::Rice(k) => words.for_each(|word| write_rice(out, k, word)),
        Code::VariableByte => words.for_each(|word| write_variable_byte(out, word)),
        Code::Interpolative => write_interpolative(out, values),
    }
}

fn write_gamma(out: &mut BitWriter, word: u32) {
    out.number(0, length(word) - 1);
    out.number(word, length(word));
}

fn write_delta(out: &mut BitWriter, word: u32) {
    write_gamma(out, length(word));
    out.number(word, length(word));
}

fn write_rice(out: &mut BitWriter, k: u32, word: u32) {
    let quotient = (word - 1) >> k;
    out.zeros(quotient);
    out.number(1, 1);
    out.number((word - 1) - (quotient << k), k);
}

fn write_variable_byte(out: &mut BitWriter, word: u32) {
    for group in (1..groups(word)).rev() {
        out.number(0x80 | (word >> (7 * group)) & 0x7F, 8);
    }
    out.number(word & 0x7F, 8);
}

fn write_interpolative(out: &mut BitWriter, instants: &[u32]) {
    if let Some((&last, others)) = instants.split_last() {
        write_delta(out, last + 1);
        for_each_offset(others, 0, last, &mut |offset, width| out.number(offset, width));
    }
}

#[cfg(test)]
mod tests {
    use super::*;
    use crate::streams::of_record;

    /// The record's bits from the start of a buffer, as a string of 0 and 1.
    fn record(heading: [u32; 3], values: &[u32]) -> String {
        let mut buffer = vec![0; 64];
        let next = write(&mut buffer, 0, heading, values).expect("a list without faults");
        let bits: String = buffer.iter().map(|byte| format!("{byte:08b}")).collect();
        bits[..next as usize].to_owned()
    }

    /// The bits of one word, which a plain list of one value has after its heading.
    fn word(code: u32, k: u32, word: u32) -> String {
        let heading = if code == 3 { 4 + 2 + 5 + 3 } else { 4 + 2 + 3 };
        record([code, k, 0], &[word])[heading..].to_owned()
    }

    #[test]
    fn words_have_the_bits_of_the_rules() {
        assert_eq!(word(1, 0, 1), "1");
        assert_eq!(word(1, 0, 9), "0001001");
        assert_eq!(word(1, 0, 4_294_967_295), format!("{}{}", "0".repeat(31), "1".repeat(32)));
        assert_eq!(word(2, 0, 1), "11");
        assert_eq!(word(2, 0, 14), "001001110");
        assert_eq!(word(2, 0, 4_294_967_295).len(), 43);
        assert_eq!(word(3, 4, 83), "0000010010");
        assert_eq!(word(3, 0, 1), "1");
        assert_eq!(word(3, 0, 100), format!("{}1", "0".repeat(99)));
        assert_eq!(word(3, 31, 4_294_967_295).len(), 33);
        assert_eq!(word(4, 0, 127), "01111111");
        assert_eq!(word(4, 0, 128), "1000000100000000");
        assert_eq!(word(4, 0, 65_536), "100001001000000000000000");
    }

    #[test]
    fn streams_have_the_bytes_of_the_rules() {
        assert_eq!(of_record([1, 0, 1], &[5, 5, 9]), [0x14, 0x86, 0x94, 0x00]);
        assert_eq!(of_record([1, 0, 1], &[5, 9])[..3], [0x15, 0x98, 0xA0]);
        assert_eq!(of_record([5, 0, 1], &[5, 5, 9]), [0x54, 0x84, 0xA5, 0x00]);
        assert_eq!(of_record([1, 0, 0], &[]), [0x12, 0x00]);
        assert_eq!(record([5, 0, 1], &[]), "0101011");
    }

    #[test]
    fn bits_around_the_record_stay() {
        for heading in [[1, 0, 1], [2, 0, 1], [3, 3, 1], [4, 0, 1], [5, 0, 1]] {
            let values = [5, 5, 9, 70, 400];
            let expected = record(heading, &values);
            for (start, background) in (0..16).flat_map(|start| [(start, 0x00), (start, 0xFF)]) {
                let mut buffer = vec![background; 32];
                let next = start + expected.len();
                assert_eq!(write(&mut buffer, start as u64, heading, &values), Ok(next as u64));
                let bits: String = buffer.iter().map(|byte| format!("{byte:08b}")).collect();
                let around = if background == 0 { "0" } else { "1" };
                let after = around.repeat(bits.len() - next);
                assert_eq!(bits, format!("{}{expected}{after}", around.repeat(start)));
            }
        }
    }

    #[test]
    fn refusals_come_in_the_order_of_the_rules_and_write_nothing() {
        let too_many = vec![4_294_967_295; 4_097];
        type Case<'a> = (usize, u64, [u32; 3], &'a [u32], u32, u64);
        let cases: [Case; 15] = [
            (65_537, 0, [9, 0, 1], &too_many, 12, 0),
            (4, 33, [1, 0, 1], &[], 12, 0),
            (4, u64::MAX, [1, 0, 1], &[], 12, 0),
            (0, 0, [0, 0, 1], &too_many, 4, 0),
            (0, 0, [6, 0, 1], &too_many, 4, 0),
            (0, 0, [3, 32, 1], &too_many, 4, 0),
            (0, 0, [5, 0, 0], &too_many, 4, 0),
            (0, 0, [1, 0, 2], &too_many, 4, 0),
            (0, 0, [1, 0, 1], &too_many, 1, 0),
            (0, 0, [1, 0, 1], &[3, 1, 4_294_967_295], 3, 1),
            (0, 0, [1, 0, 1], &[3, 4_294_967_295, 1], 2, 1),
            (0, 0, [1, 0, 0], &[3, 1, 0], 2, 2),
            (4, 32, [1, 0, 1], &[], 5, 0),
            (2, 6, [1, 0, 1], &[5, 9], 5, 0),
            (65_536, 0, [3, 0, 0], &too_many[1..], 5, 0),
        ];
        for (bytes, start, heading, values, answer, told) in cases {
            let mut buffer = vec![0xA5; bytes];
            assert_eq!(write(&mut buffer, start, heading, values), Err(Refusal { answer, told }));
            assert!(buffer.iter().all(|&byte| byte == 0xA5));
        }
    }

    #[test]
    fn the_last_bit_of_the_buffer_is_enough() {
        let mut buffer = [0xFF; 3];
        assert_eq!(write(&mut buffer, 2, [1, 0, 1], &[5, 5, 9]), Ok(24));
        assert_eq!(write(&mut buffer, 3, [1, 0, 1], &[5, 5, 9]), Err(Refusal::untold(5)));
        assert_eq!(write(&mut buffer, 24, [1, 0, 1], &[]), Err(Refusal::untold(5)));
    }

    #[test]
    fn a_parameter_counts_for_rice_alone() {
        assert_eq!(record([1, 200, 1], &[5, 5, 9]), record([1, 0, 1], &[5, 5, 9]));
    }
}
