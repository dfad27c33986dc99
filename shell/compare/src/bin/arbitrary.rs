//! Random and damaged calls of every function of include/hca.h.
//!
//! `arbitrary [SEED [COUNT]]`      so many calls of that seed; 1 and 10,000,000 if left out

use std::process::ExitCode;
use std::time::Instant;

use compare::program;

const USAGE: &str = "arbitrary [SEED [COUNT]]";

fn main() -> ExitCode {
    let Some([seed, count]) = program::numbers([1, 10_000_000]) else {
        return program::misused(USAGE);
    };
    let begin = Instant::now();
    match compare::arbitrary::run(seed, count) {
        Ok(figures) => {
            println!("{figures}\n{:.1} s", begin.elapsed().as_secs_f64());
            ExitCode::SUCCESS
        }
        Err(why) => {
            eprintln!("{why}");
            ExitCode::FAILURE
        }
    }
}
