//! Compares the archive with the unchanged Rust and with a second parser: `compare [SECONDS [SEED]]`, or
//! `compare sample SEED COUNT`.
mod alphabets;
mod amending;
mod climbing;
mod damage;
mod days;
mod from_records;
mod from_rust;
mod generate;
mod limits;
mod lists;
mod lookups;
mod memory;
mod near;
mod nodes;
mod operands;
mod places;
mod random;
mod reading;
mod reduce;
mod rules;
mod runs;
mod sample;
mod scan;
mod second;
mod sections;
mod sequences;
mod spacing;
mod splice;
mod tally;
mod tokens;
mod towers;
mod tree;
mod vectors;
mod verdict;
mod words;

use std::process::ExitCode;

/// The Rust has no limit of depth, and reads what the archive refuses; so it gets a large stack.
const STACK: usize = 1 << 28;

fn main() -> ExitCode {
    let words: Vec<String> = std::env::args().skip(1).collect();
    let thread = std::thread::Builder::new().stack_size(STACK);
    let work = thread
        .spawn(move || run(&words))
        .expect("a thread can be started");
    work.join().unwrap_or(ExitCode::FAILURE)
}

fn run(words: &[String]) -> ExitCode {
    let number = |k: usize, otherwise: u64| match words.get(k) {
        None => Some(otherwise),
        Some(word) => word.parse().ok(),
    };
    if words.first().is_some_and(|word| word == "sample") {
        return match (number(1, 1), number(2, 300)) {
            (Some(seed), Some(count)) => sample::write(seed, count as usize),
            _ => usage(),
        };
    }
    match (number(0, 60), number(1, 1)) {
        (Some(seconds), Some(seed)) => sections::all(seconds, seed),
        _ => usage(),
    }
}

fn usage() -> ExitCode {
    eprintln!("compare [SECONDS [SEED]], or compare sample SEED COUNT");
    ExitCode::FAILURE
}
