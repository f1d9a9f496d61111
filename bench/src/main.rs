//! Measures the archive beside the unchanged Rust, in one process: `bench [--quick]`.
mod amending;
mod archive;
mod editions;
mod full_lists;
mod machine;
mod reading;
mod scripts;
mod stack;
mod stacks;
mod timing;

use std::process::ExitCode;

const ROUNDS: usize = 300;
const QUICK_ROUNDS: usize = 30;

fn main() -> ExitCode {
    let words: Vec<String> = std::env::args().skip(1).collect();
    let rounds = match words.as_slice() {
        [] => ROUNDS,
        [word] if word == "--quick" => QUICK_ROUNDS,
        _ => {
            eprintln!("bench [--quick]");
            return ExitCode::FAILURE;
        }
    };
    println!(
        "{}; medians of {rounds} rounds, in turn.\n",
        machine::describe()
    );
    reading::tables(rounds);
    amending::tables(rounds);
    editions::table(rounds);
    stacks::table();
    ExitCode::SUCCESS
}
