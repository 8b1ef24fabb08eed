//! Links the static library of the crate `izrughem`. IZRUGHEM_LIB names the folder that has libizrughem.a; where it is not set the library is proved and
//! built here, by `rt lib` in crates/izrughem. The first time that takes minutes, and cargo shows nothing of what a build script prints: so
//! it is said on the terminal too, if there is one. `cargo build -vv` shows all.

use std::fmt::Display;
use std::fs::OpenOptions;
use std::io::Write;
use std::path::{Path, PathBuf};
use std::process::{Command, exit};
use std::time::Instant;
use std::{env, fs};

const REPOSITORY: &str = "../..";
const OR_TAKE_ONE: &str = "or set IZRUGHEM_LIB to a folder that has libizrughem.a";

fn main() {
    println!("cargo:rerun-if-env-changed=IZRUGHEM_LIB");
    let (machine, system) = (variable("CARGO_CFG_TARGET_ARCH"), variable("CARGO_CFG_TARGET_OS"));
    if (machine.as_str(), system.as_str()) != ("x86_64", "linux") {
        fail(format_args!(
            "the library is for x86-64 Linux, not for {machine} {system}: docs/EMBEDDING.md tells what to do on another machine"
        ));
    }

    let folder = env::var_os("IZRUGHEM_LIB").map_or_else(proved, PathBuf::from);
    let archive = folder.join("libizrughem.a");
    if !archive.is_file() {
        fail(format_args!("there is no {}", archive.display()));
    }
    println!("cargo:rerun-if-changed={}", archive.display());
    println!("cargo:rustc-link-search=native={}", folder.display());
    println!("cargo:rustc-link-lib=static=izrughem");
}

fn variable(name: &str) -> String {
    env::var(name).unwrap_or_else(|error| fail(format_args!("{name}: {error}")))
}

/// Ends the build with this line.
fn fail(line: impl Display) -> ! {
    eprintln!("izrughem: {line}");
    exit(1)
}

/// Says what is done: to cargo, and on the terminal, if there is one.
fn say(line: impl Display) {
    println!("izrughem: {line}");
    if let Ok(mut terminal) = OpenOptions::new().write(true).open("/dev/tty") {
        let _unseen = writeln!(terminal, "izrughem: {line}");
    }
}

/// The folder of the library, once `rt` has proved and built it.
fn proved() -> PathBuf {
    let root = fs::canonicalize(REPOSITORY).unwrap_or_else(|error| fail(format_args!("{REPOSITORY}: {error}")));
    println!("cargo:rerun-if-changed={}", root.join("crates.txt").display());
    for part in parts(&root.join("crates")) {
        println!("cargo:rerun-if-changed={}", part.display());
    }
    let crate_folder = root.join("crates/izrughem");
    say("proving the crate izrughem and those below it, then building crates/izrughem/out/libizrughem.a");
    say("(some minutes from nothing, seconds where the crates below are proved already)");
    let begun = Instant::now();
    match Command::new("rt").arg("lib").current_dir(&crate_folder).status() {
        Ok(status) if status.success() => say(format_args!("the library is built, after {} s", begun.elapsed().as_secs())),
        Ok(status) => fail(format_args!("rt lib in crates/izrughem: {status}; the library is not built")),
        Err(error) => {
            fail(format_args!("rt, the Rattle kit's command, is needed and does not run ({error}): put it on the path, {OR_TAKE_ONE}"))
        }
    }
    crate_folder.join("out")
}

/// What the crates are made of: what rt makes of them, in their folders out/, is no input.
fn parts(crates: &Path) -> Vec<PathBuf> {
    let folders = fs::read_dir(crates).unwrap_or_else(|error| fail(format_args!("{}: {error}", crates.display())));
    folders.filter_map(Result::ok).flat_map(|folder| ["src", "specs", "proofs"].map(|part| folder.path().join(part))).filter(|part| part.is_dir()).collect()
}
