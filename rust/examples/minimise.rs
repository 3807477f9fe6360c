//! `minimise`: the first pattern of the case on standard input, shortened with limit 1,000,000, caller 0
//! and tallies 0. Prints how many canonical documents were tried, a line for each node that is left
//! (number, parent, label, edge, position, figure), and the numbers of the struck ones, in the order in which
//! they went. Exit status: 0 shortened as far as it goes; 3 refused, with a line that says so; 4 the case can't
//! be read, 5 the answer can't be written, 7 wrong usage.

use cadwezin::{minimise, Shortened, Tallies, ANSWER_BYTES, LIMIT_MOST};
use std::fs::File;
use std::io::{self, ErrorKind, Read, Write};
use std::os::fd::AsFd;
use std::process::ExitCode;
use std::sync::atomic::{AtomicBool, Ordering};

const CALLER: u64 = 0;

const SHORTENED: u8 = 0;
const REFUSED: u8 = 3;
const UNREADABLE: u8 = 4;
const UNWRITABLE: u8 = 5;
const MISUSED: u8 = 7;

/// One byte more than a case may have: what is longer is refused, cut or not.
const READ_MOST: u64 = 65_537;

/// Whether standard output is open. In the place of a closed one Rust opens /dev/null before `main`,
/// so it is asked before that.
static OPEN: AtomicBool = AtomicBool::new(true);

#[used]
#[link_section = ".init_array"]
static ASK: extern "C" fn() = ask;

extern "C" fn ask() {
    OPEN.store(output().is_ok(), Ordering::Relaxed);
}

/// Standard output as a file, whose errors are all told: `io::stdout` hides that of a closed one.
fn output() -> io::Result<File> {
    io::stdout().as_fd().try_clone_to_owned().map(File::from)
}

fn main() -> ExitCode {
    let told = match std::env::args_os().count() {
        1 => told(),
        _ => Err((MISUSED, "usage: minimise < CASE")),
    };
    ExitCode::from(told.unwrap_or_else(|(status, trouble)| {
        eprintln!("minimise: {trouble}");
        status
    }))
}

/// The status of the answer, which is printed, or of the trouble, and what it is.
fn told() -> Result<u8, (u8, &'static str)> {
    let mut case = Vec::new();
    let read = io::stdin().take(READ_MOST).read_to_end(&mut case);
    read.map_err(|_| (UNREADABLE, "the case can't be read"))?;
    let (status, text) = answer(&case);
    write(&text).map_err(|_| (UNWRITABLE, "the answer can't be written"))?;
    Ok(status)
}

fn write(text: &str) -> io::Result<()> {
    if !OPEN.load(Ordering::Relaxed) {
        return Err(ErrorKind::BrokenPipe.into());
    }
    output()?.write_all(text.as_bytes())
}

fn answer(case: &[u8]) -> (u8, String) {
    let (mut tallies, mut answer) = (Tallies::default(), [0; ANSWER_BYTES]);
    match minimise(case, LIMIT_MOST, CALLER, &mut tallies, &mut answer) {
        Ok(minimised) => {
            let shortened = Shortened::read(&answer).expect("a pattern and what was struck");
            let lines = shortened_lines(&shortened);
            (SHORTENED, format!("tried {}\n{lines}", minimised.tried))
        }
        Err(refusal) => (REFUSED, format!("refused {}\n", refusal.number())),
    }
}

fn shortened_lines(shortened: &Shortened) -> String {
    let mut text = String::new();
    for (number, node) in shortened.left.iter().enumerate() {
        let (parent, edge) = (node.parent.0, u8::from(node.descendant));
        let (label, position, figure) = (node.label, node.position, node.figure);
        text += &format!("node {number} {parent} {label} {edge} {position} {figure}\n");
    }
    text += "struck";
    for node in &shortened.struck {
        text += &format!(" {}", node.0);
    }
    text + "\n"
}
