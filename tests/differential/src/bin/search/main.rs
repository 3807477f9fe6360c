//! `search SECONDS SEED FILE FOLDER`: looks for a verdict that takes long. Begins from the cases in
//! FOLDER and from drawn ones, alters a case again and again, keeps what takes longer, and begins anew
//! where nothing more is found. Prints each new worst and writes the worst case of all to FILE. What is
//! tried depends on the seed, and on how long the calls took.
//!
//! Each case that is kept is held to the reference: all trials where they are few, else the first ones,
//! and a document that is shown must be a counterexample.

#![deny(unsafe_code)]

#[allow(unsafe_code)]
mod clock;
mod rows;

use cadwezin::{ffi, Tallies};
use clock::timed;
use differential::compare::compare;
use differential::lent::Loans;
use reference::generate::{cases, many, Prng};
use reference::vectors::{Vector, VERDICT};
use rows::Rows;
use std::path::Path;
use std::process::ExitCode;
use std::time::{Duration, Instant};

const LIMIT: u64 = 1_000_000;
const CALLER: u64 = 0;
/// So many trials the reference lays out soon, whatever their size; and so many within seconds, for the
/// worst.
const FEW: u64 = 300;
const SOME: u64 = 5_000;
/// So many alterations one after another that all took less, or so much time in which they did: the
/// climb is over.
const PATIENCE: u32 = 600;
const PATIENCE_TIME: Duration = Duration::from_secs(15);
/// Drawn cases to begin from.
const DRAWN: usize = 60;

fn main() -> ExitCode {
    let words: Vec<String> = std::env::args().skip(1).collect();
    let numbers = |seconds: &str, seed: &str| Some((seconds.parse().ok()?, seed.parse().ok()?));
    let given = match &words[..] {
        [seconds, seed, file, folder] => {
            numbers(seconds, seed).map(|(seconds, seed)| (seconds, seed, file, folder))
        }
        _ => None,
    };
    let Some((seconds, seed, file, folder)) = given else {
        eprintln!("usage: search SECONDS SEED FILE FOLDER");
        return ExitCode::from(2);
    };
    match run(Duration::from_secs(seconds), seed, file, folder) {
        Ok(()) => ExitCode::SUCCESS,
        Err(what) => {
            eprintln!("search: seed {seed}: {what}");
            ExitCode::FAILURE
        }
    }
}

fn run(time: Duration, seed: u64, file: &str, folder: &str) -> Result<(), String> {
    let mut search = Search::new(time, seed);
    let mut starts = Vec::new();
    for (name, rows) in read_cases(folder)?.into_iter().chain(drawn(seed)) {
        starts.extend(search.tried(&name, rows)?);
    }
    if starts.is_empty() {
        return Err("there is nothing to begin from".to_string());
    }
    starts.sort_by_key(|start| std::cmp::Reverse(start.took));
    let mut climbs = 0;
    while search.goes_on() {
        // The slowest are begun from most often.
        let most = 1 + search.prng.below(starts.len());
        let start = starts[search.prng.below(most)].clone();
        search.climb(start)?;
        climbs += 1;
    }
    let Some(worst) = &search.worst else {
        return Err("no case was accepted".to_string());
    };
    std::fs::write(file, worst.rows.bytes()).map_err(|error| format!("{file}: {error}"))?;
    println!(
        "search: {} verdicts, {climbs} climbs from {} cases; the worst, {}, is in {file}",
        search.calls,
        starts.len(),
        worst.words()
    );
    Ok(())
}

/// The cases of a folder that are whole, in the order of their names.
fn read_cases(folder: &str) -> Result<Vec<(String, Rows)>, String> {
    let wrong = |error: std::io::Error| format!("{folder}: {error}");
    let entries = std::fs::read_dir(Path::new(folder)).map_err(wrong)?;
    let mut paths = Vec::new();
    for entry in entries {
        paths.push(entry.map_err(wrong)?.path());
    }
    paths.sort();
    let mut cases = Vec::new();
    for path in paths {
        let name = path.file_name().unwrap_or_default().to_string_lossy();
        let bytes = std::fs::read(&path).map_err(wrong)?;
        cases.extend(Rows::read(&bytes).map(|rows| (name.into_owned(), rows)));
    }
    Ok(cases)
}

fn drawn(seed: u64) -> impl Iterator<Item = (String, Rows)> {
    let near = cases(seed, DRAWN)
        .into_iter()
        .zip(std::iter::repeat("near the limits"));
    let many = many(seed, DRAWN)
        .into_iter()
        .zip(std::iter::repeat("many placements"));
    near.chain(many)
        .filter_map(|(vector, name)| Some((name.to_string(), Rows::read(&vector.case)?)))
}

/// A case with what its verdict took.
#[derive(Clone)]
struct Found {
    rows: Rows,
    start: String,
    took: Duration,
    kind: u64,
    tried: u64,
}

impl Found {
    fn words(&self) -> String {
        let kind = ["refused", "included", "not included", "stopped"][self.kind as usize];
        let Found {
            took, tried, start, ..
        } = self;
        format!(
            "{took:.1?}: {kind}, tried {tried}, {} nodes, from {start}",
            self.rows.size()
        )
    }
}

struct Search {
    end: Instant,
    prng: Prng,
    loans: Loans,
    worst: Option<Found>,
    calls: u64,
}

impl Search {
    fn new(time: Duration, seed: u64) -> Self {
        Search {
            end: Instant::now() + time,
            prng: Prng::new(seed),
            loans: Loans::default(),
            worst: None,
            calls: 0,
        }
    }

    fn goes_on(&self) -> bool {
        Instant::now() < self.end
    }

    /// Alters a case as long as that makes its verdict slower now and then.
    fn climb(&mut self, start: Found) -> Result<(), String> {
        let mut best = start;
        let (mut left, mut since) = (PATIENCE, Instant::now());
        while left > 0 && since.elapsed() < PATIENCE_TIME && self.goes_on() {
            let mut rows = best.rows.clone();
            for _ in 0..[1, 1, 2, 4][self.prng.below(4)] {
                rows.alter(&mut self.prng);
            }
            left -= 1;
            let Some(found) = self.judged(&best.start, rows) else {
                continue;
            };
            // As slow as before is kept too: it may lead on.
            let slow = best.took.mul_f64(0.99);
            if found.took < slow || found.rows == best.rows {
                continue;
            }
            let found = self.settled(found);
            if found.took > best.took.mul_f64(1.02) {
                (left, since) = (PATIENCE, Instant::now());
            }
            if found.took > slow {
                best = self.kept(found)?;
            }
        }
        Ok(())
    }

    /// A case to begin from, `None` where it is refused.
    fn tried(&mut self, name: &str, rows: Rows) -> Result<Option<Found>, String> {
        match self.judged(name, rows) {
            Some(found) => {
                let found = self.settled(found);
                self.kept(found).map(Some)
            }
            None => Ok(None),
        }
    }

    fn judged(&mut self, start: &str, rows: Rows) -> Option<Found> {
        let (took, got) = self.verdict(&rows);
        (got.refused == 0).then(|| Found {
            rows,
            start: start.to_string(),
            took,
            kind: got.kind,
            tried: got.tried,
        })
    }

    /// With the least time of two more calls: what else ran on the machine is no part of it.
    fn settled(&mut self, mut found: Found) -> Found {
        for _ in 0..2 {
            found.took = found.took.min(self.verdict(&found.rows).0);
        }
        found
    }

    fn verdict(&mut self, rows: &Rows) -> (Duration, ffi::VerdictAnswer) {
        self.calls += 1;
        let case = rows.bytes();
        let mut tallies = Tallies::default();
        let answer = self.loans.bytes.lend(cadwezin::ANSWER_BYTES);
        timed(|| ffi::verdict(&case, LIMIT, CALLER, &mut tallies, answer))
    }

    /// Holds a case to the reference, and says so where it is the worst so far.
    fn kept(&mut self, found: Found) -> Result<Found, String> {
        let worst = self.worst.as_ref().map(|worst| worst.took);
        let is_worst = worst.is_none_or(|worst| found.took > worst);
        self.held(&found, if is_worst { SOME } else { FEW })
            .map_err(|what| {
                format!("{what}\ncase, in hexadecimal: {}", hex(&found.rows.bytes()))
            })?;
        if is_worst {
            println!("{}", found.words());
            self.worst = Some(found.clone());
        }
        Ok(found)
    }

    /// All trials are the reference's where they are no more than so many; else the first ones are, and
    /// pass.
    fn held(&mut self, found: &Found, most: u64) -> Result<(), String> {
        let limit = if found.tried <= most { LIMIT } else { most };
        let vector = Vector {
            call: VERDICT,
            limit,
            length: cadwezin::ANSWER_BYTES as u64,
            case: found.rows.bytes(),
            ..Vector::default()
        };
        let answered = compare(&vector, &mut self.loans)?;
        let expected = if limit == LIMIT {
            (found.kind, found.tried)
        } else {
            (ffi::STOPPED, limit)
        };
        if (answered.value, answered.size) != expected {
            return Err(format!(
                "{answered:?} with limit {limit}, {expected:?} expected"
            ));
        }
        if found.kind == ffi::NOT_CONTAINED {
            self.counterexample(&vector.case)?;
        }
        Ok(())
    }

    /// What is shown fits, has the first pattern's result, and no member has it; by the reference.
    fn counterexample(&mut self, case: &[u8]) -> Result<(), String> {
        let answer = self.loans.bytes.lend(cadwezin::ANSWER_BYTES);
        ffi::verdict(case, LIMIT, CALLER, &mut Tallies::default(), answer);
        let answer = self.loans.bytes.now();
        let field = |at: usize| usize::from(u16::from_le_bytes([answer[at], answer[at + 1]]));
        let end = 2 + 6 * field(0);
        let (document, list) = (&answer[..end], &answer[end + 2..end + 2 + 2 * field(end)]);
        let holds = |number| reference::is_result(case, number, document, list).holds;
        let members = reference::records::read_case(case).map_or(0, |case| case.set.len());
        let right = reference::fits(case, document).holds
            && holds(1)
            && (2..2 + members as u64).all(|number| !holds(number));
        if right {
            Ok(())
        } else {
            Err("what is shown is no counterexample".to_string())
        }
    }
}

fn hex(bytes: &[u8]) -> String {
    bytes.iter().map(|byte| format!("{byte:02x}")).collect()
}
