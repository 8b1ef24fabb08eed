//! Runs a script from standard input through the Rust fee estimator and prints the lines that `replay` must print.
//! With `--mark` each line begins with `R ` where it says what the Rust did, and with `- ` where the driver worked it out by itself. With `--any-gap` a block
//! is not refused for its height: the Rust crosses any gap in one call.

extern crate alloc;

mod history;
mod memory;
mod run;
mod script;
#[allow(dead_code)]
mod subject;

use run::{Line, Run};
use std::io::{self, Read, Write};

fn main() -> io::Result<()> {
    let (mut mark, mut any_gap) = (false, false);
    for option in std::env::args().skip(1) {
        match option.as_str() {
            "--mark" => mark = true,
            "--any-gap" => any_gap = true,
            _ => {
                eprintln!("usage: oracle [--mark] [--any-gap] <SCRIPT");
                std::process::exit(2);
            }
        }
    }
    let mut script = Vec::new();
    io::stdin().read_to_end(&mut script)?;
    let mut out = io::BufWriter::new(io::stdout().lock());
    for Line { text, from_rust } in lines(&script, any_gap) {
        let tag = match (mark, from_rust) {
            (false, _) => "",
            (true, true) => "R ",
            (true, false) => "- ",
        };
        writeln!(out, "{tag}{text}")?;
    }
    out.flush()
}

/// All lines that the script prints.
fn lines(script: &[u8], any_gap: bool) -> Vec<Line> {
    let bad = |number: usize| Line { text: format!("bad line {number}"), from_rust: false };
    if script.len() > script::MOST_BYTES {
        return vec![bad(0)];
    }
    let mut run = Run::new(any_gap);
    let mut printed = Vec::new();
    for (before, line) in script.split_inclusive(|&byte| byte == b'\n').enumerate() {
        match step(&mut run, line) {
            Some(line) => printed.extend(line),
            None => {
                printed.push(bad(before + 1));
                break;
            }
        }
    }
    printed
}

/// Runs one line with its line feed, and answers what it prints; none where it does not fit.
fn step(run: &mut Run, line: &[u8]) -> Option<Option<Line>> {
    let line = line.strip_suffix(b"\n")?;
    if line.is_empty() || line.starts_with(b"#") {
        return Some(None);
    }
    run.step(script::parse(line)?).ok()
}
