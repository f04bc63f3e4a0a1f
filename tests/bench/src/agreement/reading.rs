//! The readers, on records whole, cut and damaged, and on what they must refuse.

use crate::{boundary, INSTANTS};
use bench::plain::{self, MOST_BYTES};
use bench::streams;
use std::fmt::Debug;

/// In so many places a long record is damaged, in one at a time.
const DAMAGED_PLACES: usize = 16;

/// How many bits, and what becomes of each: of its byte and the bit in it.
type Damage = (usize, fn(u8, u8) -> u8);

/// One bit is turned, or 32 become zeros or ones, which makes words that are none.
const DAMAGES: [Damage; 3] = [(1, |byte, bit| byte ^ bit), (32, |byte, bit| byte & !bit), (32, |byte, bit| byte | bit)];

/// Compares the readers on a record in a stream, with lists too short and too long for it, and on some damage to it.
pub fn on_record(heading: [u32; 3], values: &[u32]) -> Result<(), String> {
    let stream = streams::of_record(heading, values);
    let whole = [0, bits(&stream)];
    for room in [values.len() - 1, values.len() + 1] {
        on_read(&stream, whole, INSTANTS, room)?;
    }
    if on_read(&stream, whole, INSTANTS, values.len())? != values {
        return Err(format!("heading {heading:?}: both read another list than was written"));
    }
    on_entries(&stream, whole, values)?;
    on_damage(&stream, bits(&stream) as usize / DAMAGED_PLACES, values)
}

/// Compares the readers at every earlier stop, for every start within a byte, and on damage at every bit.
pub fn on_short_record(heading: [u32; 3], values: &[u32]) -> Result<(), String> {
    for start in 0..8 {
        // Ones, so that a reader that uses a bit from the stop on does not find the zeros it may hope for.
        let mut buffer = vec![0xFF; MOST_BYTES];
        let written = plain::write(&mut buffer, start, heading, values);
        let next = written.map_err(|refusal| format!("heading {heading:?}: {refusal:?} for a short record"))?;
        (start..=next).try_for_each(|stop| on_entries(&buffer, [start, stop], values))?;
    }
    let stream = streams::of_record(heading, values);
    (0..stream.len()).try_for_each(|bytes| on_check(&stream[..bytes]))?;
    on_damage(&stream, 1, values)
}

/// Compares the readers on what they must refuse, so that none is timed without the judging.
pub fn on_refusals(heading: [u32; 3], values: &[u32]) -> Result<(), String> {
    let stream = streams::of_record(heading, values);
    let end = bits(&stream);
    for range in [[1, 0], [0, end + 1], [end + 1, end + 1], [u64::MAX, u64::MAX], [end - 4, end]] {
        on_entries(&stream, range, values)?;
    }
    for kind in [0, 2, 3] {
        on_read(&stream, [0, end], kind, values.len())?;
    }
    for last in [0x00, 0x01] {
        on_check(&[&stream[..], &[last]].concat())?;
    }
    let mut too_long = stream;
    too_long.resize(MOST_BYTES + 1, 0);
    on_entries(&too_long, [0, end], values)?;
    on_check(&too_long)
}

/// Compares the readers on damage to the stream that begins at the multiples of the step.
fn on_damage(stream: &[u8], step: usize, values: &[u32]) -> Result<(), String> {
    for (from, damage) in (0..8 * stream.len()).step_by(step).flat_map(|from| DAMAGES.map(|damage| (from, damage))) {
        let damaged = damaged(stream, from, damage);
        on_entries(&damaged, [0, bits(&damaged)], values)?;
        on_check(&damaged)?;
    }
    Ok(())
}

fn damaged(stream: &[u8], from: usize, (width, damage): Damage) -> Vec<u8> {
    let mut damaged = stream.to_vec();
    for at in from..(from + width).min(8 * stream.len()) {
        damaged[at / 8] = damage(damaged[at / 8], 0x80 >> (at % 8));
    }
    damaged
}

/// Compares reader, look-up and search of what a list's record has become.
fn on_entries(buffer: &[u8], [start, stop]: [u64; 2], values: &[u32]) -> Result<(), String> {
    on_read(buffer, [start, stop], INSTANTS, values.len())?;
    let middle = values.len() / 2;
    for place in [middle as u64, values.len() as u64] {
        let library = boundary::look_up(buffer, start, stop, INSTANTS, place);
        let plain = plain::look_up(buffer, start, stop, INSTANTS, place);
        same(library, plain, || format!("look-up of place {place}, bits {start} to {stop}"))?;
    }
    let instant = values[middle];
    let library = boundary::search(buffer, start, stop, instant);
    let plain = plain::search(buffer, start, stop, instant);
    same(library, plain, || format!("search for {instant}, bits {start} to {stop}"))
}

/// Compares the readers' answers and all of their lists, and hands the list back.
fn on_read(buffer: &[u8], [start, stop]: [u64; 2], kind: u32, room: usize) -> Result<Vec<u32>, String> {
    let call = || format!("reading kind {kind} into room for {room}, bits {start} to {stop}");
    let mut by_library = vec![0xA5A5_A5A5; room];
    let mut by_plain = by_library.clone();
    let library = boundary::read(buffer, start, stop, kind, &mut by_library);
    let plain = plain::read(buffer, start, stop, kind, &mut by_plain);
    same(library, plain, call)?;
    if let Some(place) = (0..room).find(|&place| by_library[place] != by_plain[place]) {
        same(by_library[place], by_plain[place], || format!("{}: place {place}", call()))?;
    }
    Ok(by_plain)
}

fn on_check(stream: &[u8]) -> Result<(), String> {
    same(boundary::check(stream), plain::check(stream), || format!("check of {} bytes", stream.len()))
}

fn same<T: Debug + PartialEq>(library: T, plain: T, call: impl Fn() -> String) -> Result<(), String> {
    if library == plain {
        return Ok(());
    }
    Err(format!("{}: the library gives {library:?}, the plain reader {plain:?}", call()))
}

fn bits(buffer: &[u8]) -> u64 {
    8 * buffer.len() as u64
}
