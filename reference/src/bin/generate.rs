//! `generate boundaries`, `generate stored`, `generate random SEED COUNT`,
//! `generate cases SEED COUNT`, `generate layouts SEED COUNT`, `generate many SEED
//! COUNT`, `generate strikes SEED COUNT` and `generate normals SEED COUNT` write test
//! vectors to standard output.

#![forbid(unsafe_code)]

use reference::generate::{boundaries, cases, layouts, many, normals, random, stored, strikes};
use reference::vectors::Vector;
use std::io::{self, Write};
use std::process::ExitCode;

const USAGE: &str = "usage: generate boundaries
       generate stored
       generate random SEED COUNT
       generate cases SEED COUNT
       generate layouts SEED COUNT
       generate many SEED COUNT
       generate strikes SEED COUNT
       generate normals SEED COUNT";

fn main() -> ExitCode {
    let words: Vec<String> = std::env::args().skip(1).collect();
    let words: Vec<&str> = words.iter().map(String::as_str).collect();
    let vectors = match words[..] {
        ["boundaries"] => Some(boundaries()),
        ["stored"] => Some(stored()),
        ["random", seed, count] => seeded(seed, count, random),
        ["cases", seed, count] => seeded(seed, count, cases),
        ["layouts", seed, count] => seeded(seed, count, layouts),
        ["many", seed, count] => seeded(seed, count, many),
        ["strikes", seed, count] => seeded(seed, count, strikes),
        ["normals", seed, count] => seeded(seed, count, normals),
        _ => None,
    };
    match vectors {
        Some(vectors) => write(&vectors),
        None => {
            eprintln!("{USAGE}");
            ExitCode::FAILURE
        }
    }
}

fn seeded(seed: &str, count: &str, make: fn(u64, usize) -> Vec<Vector>) -> Option<Vec<Vector>> {
    Some(make(seed.parse().ok()?, count.parse().ok()?))
}

fn write(vectors: &[Vector]) -> ExitCode {
    let mut bytes = Vec::new();
    for vector in vectors {
        vector.write(&mut bytes);
    }
    match io::stdout().write_all(&bytes) {
        Ok(()) => ExitCode::SUCCESS,
        Err(error) => {
            eprintln!("{error}");
            ExitCode::FAILURE
        }
    }
}
