//! Finds the archive that `tools/archive` writes: in the directory that CADWEZIN_LIB_DIR
//! names, or else in target/staticlib of the repository.

use std::env;
use std::path::PathBuf;
use std::process::exit;

const VARIABLE: &str = "CADWEZIN_LIB_DIR";
const ARCHIVE: &str = "libcadwezin.a";

fn main() {
    println!("cargo:rerun-if-env-changed={VARIABLE}");
    let target = |what: &str| env::var(format!("CARGO_CFG_TARGET_{what}")).unwrap_or_default();
    if target("ARCH") != "x86_64" || target("POINTER_WIDTH") != "64" {
        missing("the archive is for x86-64 only");
    }
    let directory = match env::var_os(VARIABLE) {
        Some(directory) => PathBuf::from(directory),
        None => PathBuf::from(env!("CARGO_MANIFEST_DIR")).join("../target/staticlib"),
    };
    let archive = directory.join(ARCHIVE);
    println!("cargo:rerun-if-changed={}", archive.display());
    if !archive.is_file() {
        missing(&format!(
            "there is no {}: build it with `tools/archive` in the repository, or set {VARIABLE} to \
             the absolute path of the directory that has it",
            archive.display()
        ));
    }
    println!("cargo:rustc-link-search=native={}", directory.display());
    println!("cargo:rustc-link-lib=static=cadwezin");
}

fn missing(what: &str) -> ! {
    eprintln!("cadwezin: {what}");
    exit(1);
}
