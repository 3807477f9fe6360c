//! `differential SEED COUNT`: calls the library and the reference on COUNT inputs, on all cores, after
//! the filed cases and the fixed ones, those at every boundary among them; prints what was called, or the first difference.

#![forbid(unsafe_code)]

use differential::compare::compare;
use differential::counts::Counts;
use differential::lent::Loans;
use differential::old::filed;
use differential::seed_of;
use differential::vary::vary;
use reference::generate::{boundaries, cases, layouts, normals, random, strikes, Prng};
use reference::vectors::Vector;
use std::process::ExitCode;
use std::sync::atomic::{AtomicU64, Ordering};
use std::time::Instant;

/// Vectors drawn for one portion of the work, and calls made of each.
const DRAWN: usize = 60;
const CALLS_EACH: usize = 40;
/// So many portions in one hundred hold cases and layouts near the limits, so many orders, and so many cases
/// to be written in one way.
const NEAR_LIMITS: u64 = 4;
const ORDERS: u64 = 6;
const NORMALS: u64 = 6;

fn main() -> ExitCode {
    let words = std::env::args().skip(1);
    let numbers: Option<Vec<u64>> = words.map(|word| word.parse().ok()).collect();
    let Some(&[seed, count]) = numbers.as_deref() else {
        eprintln!("usage: differential SEED COUNT");
        return ExitCode::from(2);
    };
    match run(seed, count) {
        Ok(counts) => {
            print!("{counts}");
            ExitCode::SUCCESS
        }
        Err(difference) => {
            eprintln!("differential: seed {seed}: {difference}");
            ExitCode::FAILURE
        }
    }
}

fn run(seed: u64, count: u64) -> Result<Counts, String> {
    let start = Instant::now();
    let mut counts = Counts::default();
    let mut loans = Loans::default();
    println!("differential: {}", filed(&mut loans)?);
    for vector in boundaries().iter().chain(&normals(seed, 0)) {
        call(vector, &mut loans, &mut counts)?;
    }
    let fixed = counts.total();
    let portions = count.div_ceil((DRAWN * CALLS_EACH) as u64);
    let cores = std::thread::available_parallelism().map_or(1, usize::from);
    let next = AtomicU64::new(0);
    let parts: Vec<Result<Counts, String>> = std::thread::scope(|scope| {
        let work = || worker(seed, portions, &next);
        let threads: Vec<_> = (0..cores).map(|_| scope.spawn(work)).collect();
        let joined = threads.into_iter().map(|thread| thread.join());
        joined.map(|part| part.expect("no thread panics")).collect()
    });
    for part in parts {
        counts.add(&part?);
    }
    let (seconds, total) = (start.elapsed().as_secs_f64(), counts.total());
    println!(
        "differential: seed {seed}, {total} calls ({fixed} of them at the boundaries), the same; {seconds:.1} s on {cores} cores, {:.0} calls a second",
        total as f64 / seconds
    );
    Ok(counts)
}

/// Takes portions until there are no more, or until one of its calls differs.
fn worker(seed: u64, portions: u64, next: &AtomicU64) -> Result<Counts, String> {
    let mut counts = Counts::default();
    let mut loans = Loans::default();
    loop {
        let portion = next.fetch_add(1, Ordering::Relaxed);
        if portion >= portions {
            return Ok(counts);
        }
        let mut prng = Prng::new(seed_of(seed, portion));
        if let Err(difference) = calls_of(&mut prng, portion, &mut loans, &mut counts) {
            // The others stop too.
            next.store(portions, Ordering::Relaxed);
            return Err(difference);
        }
    }
}

/// One portion: the vectors drawn, and variations of each.
fn calls_of(
    prng: &mut Prng,
    portion: u64,
    loans: &mut Loans,
    counts: &mut Counts,
) -> Result<(), String> {
    let drawn = match portion % 100 {
        near if near < NEAR_LIMITS => {
            let mut drawn = cases(prng.draw(), DRAWN / 6);
            drawn.extend(layouts(prng.draw(), DRAWN - drawn.len()));
            drawn
        }
        orders if orders < NEAR_LIMITS + ORDERS => strikes(prng.draw(), DRAWN / 2),
        normal if normal < NEAR_LIMITS + ORDERS + NORMALS => {
            let mut drawn = normals(prng.draw(), DRAWN);
            // Without those that are always the same.
            drawn.split_off(drawn.len() - DRAWN)
        }
        _ => random(prng.draw(), DRAWN),
    };
    for (index, vector) in drawn.iter().enumerate() {
        call(vector, loans, counts)?;
        for _ in 1..CALLS_EACH {
            call(&vary(prng, &drawn, index), loans, counts)?;
        }
    }
    Ok(())
}

/// One call, counted; a difference comes with the vector, for `reference calls` to read.
fn call(vector: &Vector, loans: &mut Loans, counts: &mut Counts) -> Result<(), String> {
    match compare(vector, loans) {
        Ok(answered) => {
            counts.count(vector, answered);
            Ok(())
        }
        Err(difference) => {
            let mut bytes = Vec::new();
            vector.write(&mut bytes);
            let hex: String = bytes.iter().map(|byte| format!("{byte:02x}")).collect();
            Err(format!("{difference}\nvector, in hexadecimal: {hex}"))
        }
    }
}
