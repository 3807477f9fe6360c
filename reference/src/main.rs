//! `reference verdict`, `reference upgrade`, `reference downgrade`, `reference
//! normalise`, `reference minimise`, `reference refusals`, `reference calls` and
//! `reference case N`, each reading standard input.

#![forbid(unsafe_code)]

use reference::calls::{ANSWER_BYTES, INCLUDED, NOT_INCLUDED};
use reference::vectors::read_all;
use reference::{CountAnswer, CALLERS};
use std::fmt::Write as _;
use std::io::{self, Read, Write};
use std::process::ExitCode;

const USAGE: &str = "usage: reference verdict < CASE
       reference upgrade < OLD-CASE
       reference downgrade < CASE
       reference normalise < CASE
       reference minimise < CASE
       reference refusals < VECTORS
       reference calls < VECTORS
       reference case NUMBER < VECTORS";

fn main() -> ExitCode {
    let words: Vec<String> = std::env::args().skip(1).collect();
    let words: Vec<&str> = words.iter().map(String::as_str).collect();
    let output = match words[..] {
        ["verdict"] => input().map(|case| verdict_lines(&case).into_bytes()),
        ["upgrade"] => input().map(|case| written(&case, reference::upgrade)),
        ["downgrade"] => input().map(|case| written(&case, reference::downgrade)),
        ["normalise"] => input().map(|case| written(&case, reference::normalise)),
        ["minimise"] => input().map(|case| minimise_lines(&case).into_bytes()),
        ["refusals"] => lines(|vector| vector.refusal().to_string()),
        ["calls"] => lines(|vector| vector.outcome()),
        ["case", number] => nth_case(number),
        _ => Err(USAGE.to_string()),
    };
    let written = output.and_then(|bytes| {
        io::stdout()
            .write_all(&bytes)
            .map_err(|error| error.to_string())
    });
    match written {
        Ok(()) => ExitCode::SUCCESS,
        Err(message) => {
            eprintln!("{message}");
            ExitCode::FAILURE
        }
    }
}

fn input() -> Result<Vec<u8>, String> {
    let mut bytes = Vec::new();
    io::stdin()
        .read_to_end(&mut bytes)
        .map_err(|error| error.to_string())?;
    Ok(bytes)
}

/// One line per vector.
fn lines(line: impl Fn(&reference::vectors::Vector) -> String) -> Result<Vec<u8>, String> {
    let mut text = String::new();
    for vector in read_all(&input()?)? {
        text.push_str(&line(&vector));
        text.push('\n');
    }
    Ok(text.into_bytes())
}

/// The case of one vector, counted from 0, for programs that take only that.
fn nth_case(number: &str) -> Result<Vec<u8>, String> {
    let number: usize = number.parse().map_err(|_| USAGE.to_string())?;
    let vectors = read_all(&input()?)?;
    let vector = vectors
        .get(number)
        .ok_or_else(|| format!("no vector {number}"))?;
    Ok(vector.case.clone())
}

/// "The verdict program reads a case from standard input, with limit
/// 1,000,000 and tally 0"; as a caller "the program is 0".
fn verdict_lines(case: &[u8]) -> String {
    let mut answer = [0; ANSWER_BYTES];
    let mut tallies = [0; CALLERS];
    let got = reference::verdict(case, 1_000_000, 0, &mut tallies, &mut answer);
    if got.refused != 0 {
        return format!("refused {}\n", got.refused);
    }
    let kind = match got.kind {
        INCLUDED => "included",
        NOT_INCLUDED => "not included",
        _ => "stopped",
    };
    let mut text = format!("{kind}\ntried {}\n", got.tried);
    if got.kind == NOT_INCLUDED {
        write_fields::<3>(&mut text, &answer, "answer");
    }
    text
}

/// What is left of the first selection, with the verdict program's limit, caller
/// and tallies.
fn minimise_lines(case: &[u8]) -> String {
    let mut answer = [0; ANSWER_BYTES];
    let mut tallies = [0; CALLERS];
    let got = reference::minimise(case, 1_000_000, 0, &mut tallies, &mut answer);
    if got.refused != 0 {
        return format!("refused {}\n", got.refused);
    }
    let mut text = format!("tried {}\n", got.tried);
    write_fields::<5>(&mut text, &answer, "struck");
    text
}

/// The case that a call writes. A refusal is a line on standard error, since
/// standard output has a case or nothing.
fn written(case: &[u8], call: fn(&[u8], &mut [u8]) -> CountAnswer) -> Vec<u8> {
    let mut answer = vec![0; ANSWER_BYTES];
    let got = call(case, &mut answer);
    if got.refused != 0 {
        eprintln!("refused {}", got.refused);
    }
    answer.truncate(got.count as usize);
    answer
}

/// A section as node lines, each record after its number, and the list that
/// follows it as a line: "A node line has number, parent, label; the answer line
/// lists the result by position, all in decimal"; "each printed node line ends with
/// its figure".
fn write_fields<const N: usize>(text: &mut String, answer: &[u8], list: &str) {
    let fields: Vec<u16> = answer
        .chunks_exact(2)
        .map(|field| u16::from_le_bytes([field[0], field[1]]))
        .collect();
    let (records, rest) = fields[1..].split_at(N * usize::from(fields[0]));
    for (number, record) in records.chunks(N).enumerate() {
        write_line(text, &format!("node {number}"), record);
    }
    write_line(text, list, &rest[1..=usize::from(rest[0])]);
}

fn write_line(text: &mut String, name: &str, numbers: &[u16]) {
    text.push_str(name);
    for number in numbers {
        // Writing to a string cannot fail.
        let _ = write!(text, " {number}");
    }
    text.push('\n');
}
