//! Times the static library beside the plain writer and readers on the same records, and prints how the times compare.

#[cfg(not(library_given))]
compile_error!("set MOORTANGLE_LIB_DIR to the folder that holds libmoortangle.a; only the measurement needs it");

mod agreement;
mod boundary;
mod table;
mod timing;

use bench::lists::SHAPES;
use std::process::exit;
use table::Table;

const INSTANTS: u32 = 1;

fn main() {
    let tables = SHAPES.map(Table::new);
    for table in &tables {
        if let Err(difference) = agreement::check(&table.headings(), table.lists()) {
            eprintln!("{}: {difference}", table.name());
            exit(1);
        }
    }
    let mut worst_write: f64 = 0.0;
    let mut worst_read: f64 = 0.0;
    for [write, read, ..] in tables.iter().flat_map(Table::print) {
        worst_write = worst_write.max(write);
        worst_read = worst_read.max(read);
    }
    println!("worst write ratio {worst_write:.2}");
    println!("worst read ratio {worst_read:.2}");
}
