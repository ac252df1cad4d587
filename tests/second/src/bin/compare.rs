//! Compares the proved program with this one:
//! `compare SEED TABLES LOOKS PICTURES WRITES HALVES INVERSES`.
//!
//! Both sides are given the same stream, made from the seed, and every number of their
//! answers and of lent memory is compared. At the end the seed and how often each call
//! answered each number are printed. It fails (exit 1) at the first difference, which is
//! printed made small, and if a call was asked for and never answered one of its numbers.

use second::ffi::Ours;
use second::run::{run, Wanted};
use std::process::ExitCode;

fn main() -> ExitCode {
    let numbers: Option<Vec<u64>> =
        std::env::args().skip(1).map(|word| word.parse().ok()).collect();
    let Some(&[seed, tables, looks, pictures, writes, halves, inverses]) = numbers.as_deref()
    else {
        eprintln!("usage: compare SEED TABLES LOOKS PICTURES WRITES HALVES INVERSES");
        return ExitCode::FAILURE;
    };
    let wanted = Wanted { seed, tables, looks, pictures, writes, halves, inverses };
    match run(&wanted, Some(&Ours)) {
        Err(difference) => {
            println!("the two differ: seed {seed}, {difference}");
            ExitCode::FAILURE
        }
        Ok(counts) => {
            print!("seed\t{seed}\n{}", counts.shown());
            let missing = counts.missing(&wanted);
            if missing.is_empty() {
                return ExitCode::SUCCESS;
            }
            println!("never seen: {}", missing.join(", "));
            ExitCode::FAILURE
        }
    }
}
