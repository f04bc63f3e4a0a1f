//! Makes the files of tests/cases, or tells how those that are there differ: `make_cases [--check]`.

use second::cases::{differences, make};
use std::io;
use std::process::exit;

fn main() -> io::Result<()> {
    let given: Vec<String> = std::env::args().skip(1).collect();
    match given.iter().map(String::as_str).collect::<Vec<_>>()[..] {
        [] => println!("{} files made", make()?),
        ["--check"] => check()?,
        _ => {
            eprintln!("usage: make_cases [--check]");
            exit(2);
        }
    }
    Ok(())
}

fn check() -> io::Result<()> {
    let differences = differences()?;
    if !differences.is_empty() {
        println!("{}", differences.join("\n"));
        exit(1);
    }
    println!("the files are as they are made");
    Ok(())
}
