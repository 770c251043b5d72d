//! Compares the proved engine, through its static library, with this implementation.
//!
//!     compare SEED [COUNT]
//!
//! Ends with 1 if a call is answered in another way, or if a whole run does not meet what it has to.

use reference::comparison::compare;
use reference::engine::Library;
use std::process::ExitCode;
use std::time::Instant;

/// How many calls a run compares, the fewest of a run that has to meet every refusal of every call, and of one that has to meet every size as well.
const COUNT: usize = 200_000;
const SHORT_RUN: usize = 20_000;
const WHOLE_RUN: usize = 200_000;

fn main() -> ExitCode {
    let words: Vec<String> = std::env::args().skip(1).collect();
    let numbers: Option<Vec<u64>> = words.iter().map(|word| word.parse().ok()).collect();
    let (seed, count) = match numbers.as_deref() {
        Some([seed]) => (*seed, COUNT),
        Some([seed, count]) => (*seed, *count as usize),
        _ => {
            eprintln!("compare SEED [COUNT]");
            return ExitCode::from(2);
        }
    };
    let start = Instant::now();
    let coverage = match compare(&Library, seed, count) {
        Ok(coverage) => coverage,
        Err(failure) => {
            println!("seed {seed}: case {} ({}) is answered in another way", failure.case, failure.call.name());
            print!("{}", failure.report(&Library));
            return ExitCode::FAILURE;
        }
    };
    println!("seed {seed}: {count} calls answered alike, in {} s\n{coverage}", start.elapsed().as_secs());
    let missing = match count {
        WHOLE_RUN.. => coverage.missing(),
        SHORT_RUN.. => coverage.missing_numbers(),
        _ => {
            println!("runs of {SHORT_RUN} calls or more have to meet every refusal of every call, of {WHOLE_RUN} every size, too");
            vec![]
        }
    };
    for line in &missing {
        println!("not met: {line}");
    }
    if missing.is_empty() {
        ExitCode::SUCCESS
    } else {
        ExitCode::FAILURE
    }
}
