//! The writers, on records and on what they must refuse.

use crate::boundary;
use bench::plain::{self, LARGEST_INSTANT, MOST_BYTES, MOST_VALUES};

/// Compares the writers on successes and on a buffer one byte too short, at every start within a byte.
pub fn on_record(heading: [u32; 3], values: &[u32]) -> Result<(), String> {
    let written = plain::write(&mut vec![0; MOST_BYTES], 0, heading, values);
    let bits = written.map_err(|refusal| format!("heading {heading:?}: {refusal:?}, so there is nothing to time"))?;
    for start in 0..8 {
        let bytes = (start + bits).div_ceil(8) as usize;
        for bytes in [MOST_BYTES, bytes, bytes - 1] {
            on_call(bytes, start, heading, values)?;
        }
    }
    Ok(())
}

/// Compares the writers on what they must refuse, so that neither is timed without the judging.
pub fn on_refusals(heading: [u32; 3], values: &[u32]) -> Result<(), String> {
    let [code, parameter, kind] = heading;
    on_call(MOST_BYTES + 1, 0, heading, values)?;
    on_call(MOST_BYTES, 8 * MOST_BYTES as u64 + 1, heading, values)?;
    on_call(MOST_BYTES, 0, [code + 5, parameter, kind], values)?;
    on_call(MOST_BYTES, 0, [code, parameter, 2], values)?;
    on_call(MOST_BYTES, 0, heading, &vec![0; MOST_VALUES + 1])?;
    let middle = values.len() / 2;
    for fault in [values[middle - 1] - 1, LARGEST_INSTANT + 1] {
        let mut faulty = values.to_vec();
        faulty[middle] = fault;
        on_call(MOST_BYTES, 0, heading, &faulty)?;
    }
    Ok(())
}

/// Over zeros and over ones, so that a changed bit beside the record shows.
fn on_call(bytes: usize, start: u64, heading: [u32; 3], values: &[u32]) -> Result<(), String> {
    on_background(vec![0x00; bytes], start, heading, values)?;
    on_background(vec![0xFF; bytes], start, heading, values)
}

fn on_background(background: Vec<u8>, start: u64, heading: [u32; 3], values: &[u32]) -> Result<(), String> {
    let call = format!("heading {heading:?}, start {start}, {} bytes", background.len());
    let mut by_library = background.clone();
    let mut by_plain = background;
    let library = boundary::write(&mut by_library, start, heading, values);
    let plain = plain::write(&mut by_plain, start, heading, values);
    if library != plain {
        return Err(format!("{call}: the library gives {library:?}, the plain writer {plain:?}"));
    }
    // Whole first, since that takes a fraction of the time.
    if by_library == by_plain {
        return Ok(());
    }
    let differ = (0..by_plain.len()).find(|&at| by_library[at] != by_plain[at]);
    let at = differ.expect("the buffers are of one length");
    let (library, plain) = (by_library[at], by_plain[at]);
    Err(format!("{call}: byte {at} is {library:02X} by the library, {plain:02X} by the plain writer"))
}
