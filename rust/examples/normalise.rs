//! `normalise`: the case on standard input, written to standard output in the one way there is for all
//! cases that are one but for the numbers of their nodes: two files hold the same order exactly when this
//! writes the same bytes for both. Exit status: 0 written; 3 refused, with a line on standard error and
//! nothing written; 4 the case can't be read, 5 it can't be written, 7 wrong usage.

use cadwezin::{normalise, Refusal, ANSWER_BYTES};
use std::fs::File;
use std::io::{self, ErrorKind, Read, Write};
use std::os::fd::AsFd;
use std::process::ExitCode;
use std::sync::atomic::{AtomicBool, Ordering};

const REFUSED: u8 = 3;
const UNREADABLE: u8 = 4;
const UNWRITABLE: u8 = 5;
const MISUSED: u8 = 7;

/// One byte more than a case may have: what is longer is refused, cut or not.
const READ_MOST: u64 = 65_537;

/// Whether standard output is open. In the place of a closed one Rust opens /dev/null before `main`,
/// so it is asked before that.
static OPEN: AtomicBool = AtomicBool::new(true);

#[used]
#[link_section = ".init_array"]
static ASK: extern "C" fn() = ask;

extern "C" fn ask() {
    OPEN.store(output().is_ok(), Ordering::Relaxed);
}

/// Standard output as a file, whose errors are all told: `io::stdout` hides that of a closed one.
fn output() -> io::Result<File> {
    io::stdout().as_fd().try_clone_to_owned().map(File::from)
}

fn main() -> ExitCode {
    let written = match std::env::args_os().count() {
        1 => written(),
        _ => Err((MISUSED, "usage: normalise < CASE".to_string())),
    };
    match written {
        Ok(()) => ExitCode::SUCCESS,
        Err((status, trouble)) => {
            eprintln!("{trouble}");
            ExitCode::from(status)
        }
    }
}

/// The status of what went wrong, and what it is.
fn written() -> Result<(), (u8, String)> {
    let mut case = Vec::new();
    let read = io::stdin().take(READ_MOST).read_to_end(&mut case);
    read.map_err(|_| (UNREADABLE, "the case can't be read".to_string()))?;
    let mut answer = [0; ANSWER_BYTES];
    let refused = |refusal: Refusal| (REFUSED, format!("refused {}", refusal.number()));
    let normal = normalise(&case, &mut answer).map_err(refused)?;
    write(normal).map_err(|_| (UNWRITABLE, "the case can't be written".to_string()))
}

fn write(case: &[u8]) -> io::Result<()> {
    if !OPEN.load(Ordering::Relaxed) {
        return Err(ErrorKind::BrokenPipe.into());
    }
    output()?.write_all(case)
}
