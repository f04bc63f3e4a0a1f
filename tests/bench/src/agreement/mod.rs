//! The check before the timing: what does not do the same is not compared.

mod reading;
mod writing;

/// At most so many values make a record short enough to be cut and damaged at every bit.
const SHORT: usize = 12;

pub fn check(headings: &[[u32; 3]], lists: &[Vec<u32>]) -> Result<(), String> {
    let first = &lists[0];
    for &heading in headings {
        writing::on_refusals(heading, first)?;
        reading::on_refusals(heading, first)?;
        reading::on_short_record(heading, &first[..first.len().min(SHORT)])?;
        for list in lists {
            writing::on_record(heading, list)?;
            reading::on_record(heading, list)?;
        }
    }
    Ok(())
}
