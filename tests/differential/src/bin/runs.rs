//! `runs SEED RUNS CALLS`: so many runs of so many interleaved verdicts and orders of all callers, through the
//! library; each caller's calls again without those of the others, and all of them through the
//! reference. Prints what was called, or the first run that differs.

#![forbid(unsafe_code)]

use differential::runs::{run, Told};
use std::process::ExitCode;
use std::time::Instant;

fn main() -> ExitCode {
    let words = std::env::args().skip(1);
    let numbers: Option<Vec<u64>> = words.map(|word| word.parse().ok()).collect();
    let Some(&[seed, runs, calls]) = numbers.as_deref() else {
        eprintln!("usage: runs SEED RUNS CALLS");
        return ExitCode::from(2);
    };
    let start = Instant::now();
    match all(seed, runs, calls as usize) {
        Ok(told) => {
            let seconds = start.elapsed().as_secs_f64();
            println!(
                "runs: seed {seed}, {told}; the same alone and by the reference, {seconds:.1} s"
            );
            ExitCode::SUCCESS
        }
        Err(what) => {
            eprintln!("runs: seed {seed}: {what}");
            ExitCode::FAILURE
        }
    }
}

fn all(seed: u64, runs: u64, calls: usize) -> Result<Told, String> {
    let mut told = Told::default();
    for number in 0..runs {
        let run = run(seed, number, calls);
        told.add(&run.map_err(|what| format!("run {number}: {what}"))?);
    }
    if told.enough() {
        Ok(told)
    } else {
        Err(format!("too little to compare: {told}"))
    }
}
