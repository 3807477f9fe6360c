//! `move_case upgrade` and `move_case downgrade`: a case from standard input, out of the old form into
//! today's or back, to standard output. Exit status: 0 moved; 3 refused, with a line on standard error
//! and nothing written; 4 the case can't be read, 5 it can't be written, 7 wrong usage.

use cadwezin::{downgrade, upgrade, Refusal, ANSWER_BYTES};
use std::ffi::OsString;
use std::fs::File;
use std::io::{self, ErrorKind, Read, Write};
use std::os::fd::AsFd;
use std::process::ExitCode;
use std::sync::atomic::{AtomicBool, Ordering};

const REFUSED: u8 = 3;
const UNREADABLE: u8 = 4;
const UNWRITABLE: u8 = 5;
const MISUSED: u8 = 7;

/// One byte more than a case may have: what is longer is refused, cut or not.
const READ_MOST: u64 = 65_537;

/// Whether standard output is open. In the place of a closed one Rust opens /dev/null before `main`,
/// so it is asked before that.
static OPEN: AtomicBool = AtomicBool::new(true);

#[used]
#[link_section = ".init_array"]
static ASK: extern "C" fn() = ask;

extern "C" fn ask() {
    OPEN.store(output().is_ok(), Ordering::Relaxed);
}

/// Standard output as a file, whose errors are all told: `io::stdout` hides that of a closed one.
fn output() -> io::Result<File> {
    io::stdout().as_fd().try_clone_to_owned().map(File::from)
}

type Move = for<'a> fn(&[u8], &'a mut [u8]) -> Result<&'a [u8], Refusal>;

fn main() -> ExitCode {
    let words: Vec<OsString> = std::env::args_os().skip(1).collect();
    let moved = match &words[..] {
        [word] if word == "upgrade" => moved(upgrade),
        [word] if word == "downgrade" => moved(downgrade),
        _ => Err((MISUSED, "usage: move_case upgrade|downgrade".to_string())),
    };
    match moved {
        Ok(()) => ExitCode::SUCCESS,
        Err((status, trouble)) => {
            eprintln!("{trouble}");
            ExitCode::from(status)
        }
    }
}

/// The status of what went wrong, and what it is.
fn moved(call: Move) -> Result<(), (u8, String)> {
    let mut case = Vec::new();
    let read = io::stdin().take(READ_MOST).read_to_end(&mut case);
    read.map_err(|_| (UNREADABLE, "the case can't be read".to_string()))?;
    let mut answer = [0; ANSWER_BYTES];
    let refused = |refusal: Refusal| (REFUSED, format!("refused {}", refusal.number()));
    let moved = call(&case, &mut answer).map_err(refused)?;
    write(moved).map_err(|_| (UNWRITABLE, "the case can't be written".to_string()))
}

fn write(case: &[u8]) -> io::Result<()> {
    if !OPEN.load(Ordering::Relaxed) {
        return Err(ErrorKind::BrokenPipe.into());
    }
    output()?.write_all(case)
}
