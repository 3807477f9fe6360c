//! `verdict CASE`: the verdict on the case in a file, with limit 1,000,000, caller 0 and tallies 0,
//! printed as document 01 says. Exit status: 0 included, 1 not included, 2 stopped, 3 refused; 4 the
//! case can't be read, 5 the answer can't be written, 7 wrong usage.

use cadwezin::{verdict, Shown, Tallies, Verdict, ANSWER_BYTES, LIMIT_MOST};
use std::ffi::{OsStr, OsString};
use std::fs::File;
use std::io::{self, ErrorKind, Read, Write};
use std::os::fd::AsFd;
use std::path::Path;
use std::process::ExitCode;
use std::sync::atomic::{AtomicBool, Ordering};

const CALLER: u64 = 0;

const INCLUDED: u8 = 0;
const NOT_INCLUDED: u8 = 1;
const STOPPED: u8 = 2;
const REFUSED: u8 = 3;
const UNREADABLE: u8 = 4;
const UNWRITABLE: u8 = 5;
const MISUSED: u8 = 7;

/// One byte more than a case may have: what is longer is refused, cut or not.
const READ_MOST: u64 = 65_537;

/// Whether standard output is open. In the place of a closed one Rust opens /dev/null before `main`,
/// so it is asked before that.
static OPEN: AtomicBool = AtomicBool::new(true);

#[used]
#[link_section = ".init_array"]
static ASK: extern "C" fn() = ask;

extern "C" fn ask() {
    OPEN.store(output().is_ok(), Ordering::Relaxed);
}

/// Standard output as a file, whose errors are all told: `io::stdout` hides that of a closed one.
fn output() -> io::Result<File> {
    io::stdout().as_fd().try_clone_to_owned().map(File::from)
}

fn main() -> ExitCode {
    let words: Vec<OsString> = std::env::args_os().skip(1).collect();
    let told = match &words[..] {
        [path] => told(path),
        _ => Err((MISUSED, "usage: verdict CASE".to_string())),
    };
    ExitCode::from(told.unwrap_or_else(|(status, trouble)| {
        eprintln!("verdict: {trouble}");
        status
    }))
}

/// The status of the answer, which is printed, or of the trouble, and what it is.
fn told(path: &OsStr) -> Result<u8, (u8, String)> {
    let case = read(path).map_err(|error| (UNREADABLE, unreadable(path, &error)))?;
    let (status, text) = answer(&case);
    match write(&text) {
        Ok(()) => Ok(status),
        Err(_) => Err((UNWRITABLE, "the answer can't be written".to_string())),
    }
}

fn read(path: &OsStr) -> io::Result<Vec<u8>> {
    let mut case = Vec::new();
    File::open(path)?.take(READ_MOST).read_to_end(&mut case)?;
    Ok(case)
}

fn unreadable(path: &OsStr, error: &io::Error) -> String {
    let name = path.to_string_lossy();
    match error.kind() {
        ErrorKind::NotFound => format!("there is no file {name}"),
        _ if Path::new(path).is_dir() => format!("{name} is a directory"),
        _ => format!("{name} can't be read"),
    }
}

fn write(text: &str) -> io::Result<()> {
    if !OPEN.load(Ordering::Relaxed) {
        return Err(ErrorKind::BrokenPipe.into());
    }
    output()?.write_all(text.as_bytes())
}

fn answer(case: &[u8]) -> (u8, String) {
    let mut answer = [0; ANSWER_BYTES];
    match verdict(
        case,
        LIMIT_MOST,
        CALLER,
        &mut Tallies::default(),
        &mut answer,
    ) {
        Ok(Verdict::Contained { tried }) => (INCLUDED, format!("included\ntried {tried}\n")),
        Ok(Verdict::Stopped { tried }) => (STOPPED, format!("stopped\ntried {tried}\n")),
        Ok(Verdict::NotContained { tried }) => {
            let shown = Shown::read(&answer).expect("a document and a result");
            let lines = shown_lines(&shown);
            (
                NOT_INCLUDED,
                format!("not included\ntried {tried}\n{lines}"),
            )
        }
        Err(refusal) => (REFUSED, format!("refused {}\n", refusal.number())),
    }
}

fn shown_lines(shown: &Shown) -> String {
    let mut text = String::new();
    for (number, node) in shown.document.iter().enumerate() {
        let (parent, label, figure) = (node.parent.0, node.label, node.figure);
        text += &format!("node {number} {parent} {label} {figure}\n");
    }
    text += "answer";
    for node in &shown.result {
        text += &format!(" {}", node.0);
    }
    text + "\n"
}
