//! The body of code 5, read by the same definition of places l to r by which it is written.

use super::fields::{Cursor, Refusal};
use crate::naive::codes::WordCode;
use crate::naive::interpolative::fewest_bits;

/// The instants t1 to tn.
pub fn instants(cursor: &mut Cursor, n: usize) -> Result<Vec<i64>, Refusal> {
    if n == 0 {
        return Ok(vec![]);
    }
    let last = cursor.word(WordCode::Delta)?.value as i64 - 1;
    let mut rising = vec![last + n as i64; n];
    part(cursor, &mut rising, 1, n as i64 - 1, 1, last + n as i64 - 1)?;
    Ok(rising.iter().zip(1..).map(|(s, place)| s - place).collect())
}

/// Finds the elements l to r of the rising list, whose places count from 1.
fn part(cursor: &mut Cursor, rising: &mut [i64], l: i64, r: i64, low: i64, hi: i64) -> Result<(), Refusal> {
    if l > r {
        return Ok(());
    }
    let m = (l + r) / 2;
    let possible = hi - low - (r - l) + 1;
    let offset = cursor.fixed(fewest_bits(possible))?;
    if offset.value as i64 >= possible {
        return Err(offset.refused(9));
    }
    let middle = offset.value as i64 + low + (m - l);
    rising[m as usize - 1] = middle;
    part(cursor, rising, l, m - 1, low, middle - 1)?;
    part(cursor, rising, m + 1, r, middle + 1, hi)
}
