//! Compares the static library's writers and readers with the naive ones: `compare seed [number of random cases]`.

#[cfg(not(library_given))]
compile_error!("set MOORTANGLE_LIB_DIR to the folder that holds libmoortangle.a; only the comparison needs it");

mod boundary;
mod case;
mod chance;
mod exported;
mod exported_readers;
mod guarded;
mod lists;
mod reading;
mod report;
mod rooms;
mod shown;
mod systematic;
mod tally;

use case::Case;
use guarded::Lending;
use reading::Comparison;
use second::random::Random;
use std::process::exit;
use std::thread::{self, JoinHandle};
use tally::Tally;

const RANDOM_WRITINGS: u64 = 200_000;
const RANDOM_READINGS: u64 = 1_500_000;

fn main() {
    let (seed, random_cases) = arguments();
    let small_world = thread::spawn(move || reading::small_world(seed));
    let mut random = Random::seeded(seed);
    let written = writers(&mut random, seed, random_cases.unwrap_or(RANDOM_WRITINGS));
    let read = readers(&mut random, seed, random_cases.unwrap_or(RANDOM_READINGS), small_world);
    println!("{written} cases of writing and {read} of reading compared, seed {seed}");
}

/// The number of cases, where all agreed and nothing was left out.
fn writers(random: &mut Random, seed: u64, random_cases: u64) -> u64 {
    let mut tally = Tally::default();
    systematic::run(random, &mut |case| check(&mut tally, &case, seed));
    for _ in 0..random_cases {
        check(&mut tally, &chance::case(random), seed);
    }
    println!("{}", tally.summary());
    nothing_left_out(&tally.missing());
    tally.cases
}

fn readers(random: &mut Random, seed: u64, random_cases: u64, small_world: JoinHandle<reading::Tally>) -> u64 {
    let mut comparison = Comparison { seed, tally: reading::Tally::default() };
    reading::systematic(random, &mut comparison);
    reading::chance(random, &mut comparison, random_cases);
    comparison.tally.add(&small_world.join().expect("the small world ends, or the run does"));
    println!("{}", comparison.tally.summary());
    nothing_left_out(&comparison.tally.missing());
    comparison.tally.cases
}

fn nothing_left_out(missing: &[String]) {
    if !missing.is_empty() {
        println!("{}", missing.join("\n"));
        exit(1);
    }
}

fn check(tally: &mut Tally, case: &Case, seed: u64) {
    let lending = Lending::of_case(tally.cases);
    match case.compare(lending) {
        Ok(outcome) => tally.count(case, &outcome),
        Err(difference) => {
            println!("DIFFERENCE in case {}, seed {seed}", tally.cases);
            println!("{}", report::report(case, lending, &difference));
            exit(1);
        }
    }
}

/// The seed, and the number of random cases for each half if it is given.
fn arguments() -> (u64, Option<u64>) {
    let given: Vec<String> = std::env::args().skip(1).collect();
    let numbers: Option<Vec<u64>> = given.iter().map(|text| text.parse().ok()).collect();
    match numbers.as_deref() {
        Some([seed]) => (*seed, None),
        Some([seed, cases]) => (*seed, Some(*cases)),
        _ => {
            eprintln!("usage: compare seed [number of random cases]");
            exit(2);
        }
    }
}
