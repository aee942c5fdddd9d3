//! Writes requests of every call, with the answers of the model, for crates/cases to repeat and compare.
//!
//!     cargo run --release -p cases -- crates/cases
//!
//! writes two files into that folder: `stdin`, the requests, and `stdout`, what the program must print: how many requests and single
//! calls of each call there are, and that none differs. With `--check` after the folder it writes nothing and compares the files with
//! what it would write. Nothing is drawn by chance: each run writes the same bytes. With `--refusals` it also prints how many calls were
//! refused. Function `write` of a module below writes the requests that the module's first comment names.

mod arguments;
mod asked;
mod builders;
mod builders_outside;
mod calls;
mod combinations;
mod cursors;
mod dispatch;
mod file;
mod grids;
mod histories;
mod lists;
mod masks;
mod minutes;
mod offers;
mod patterns;
mod run_ends;
mod run_lists;
mod serials;
mod several;
mod spans;
mod steps;
mod token;
mod words;

use file::File;
use std::fmt::Write;
use std::path::PathBuf;
use std::process::ExitCode;

/// The table of the calls' names in the program, in the order in which it prints them: a call's line begins with its name in quotes.
const NAMES: &str = include_str!("../../../crates/notation/src/names.rt");

/// Returns the names of the calls in the order in which the program prints them.
fn order() -> Vec<&'static str> {
    NAMES.lines().filter_map(|line| line.strip_prefix("    \"")?.split('"').next()).collect()
}

fn main() -> ExitCode {
    let arguments: Vec<String> = std::env::args().skip(1).collect();
    let Some(folder) = arguments.first().map(PathBuf::from) else {
        eprintln!("the folder of the program is missing");
        return ExitCode::FAILURE;
    };
    let file = requests();
    if arguments.iter().any(|argument| argument == "--refusals") {
        file.tallies.iter().for_each(|(name, tally)| println!("{name}: {} calls, {} refused", tally.calls, tally.refusals));
    }
    let check = arguments.iter().any(|argument| argument == "--check");
    let told = told(&file);
    for (name, text) in [("stdin", file.text), ("stdout", told)] {
        let path = folder.join(name);
        if check && std::fs::read(&path).ok() != Some(text.clone().into_bytes()) {
            eprintln!("{} differs from what the model gives: write it anew", path.display());
            return ExitCode::FAILURE;
        }
        if !check && let Err(error) = std::fs::write(&path, text) {
            eprintln!("{}: {error}", path.display());
            return ExitCode::FAILURE;
        }
    }
    ExitCode::SUCCESS
}

fn requests() -> File {
    let mut file = File::default();
    file.note("Requests with the answers of compare/model, written by compare/cases: do not edit. This writes them anew:");
    file.note("cargo run --release -p cases -- crates/cases");
    file.note("docs/REQUESTS.md says what a line means; tests/cases.py computes the answers again.");
    words::write(&mut file);
    spans::write(&mut file);
    masks::write(&mut file);
    builders::write(&mut file);
    cursors::write(&mut file);
    dispatch::write(&mut file);
    offers::write(&mut file);
    grids::write(&mut file);
    run_ends::write(&mut file);
    several::write(&mut file);
    serials::write(&mut file);
    histories::write(&mut file);
    run_lists::write(&mut file);
    minutes::write(&mut file);
    file
}

/// Returns what the program prints for the requests.
fn told(file: &File) -> String {
    let mut text = String::new();
    let (mut requests, mut calls) = (0, 0);
    let order = order();
    for name in &order {
        let tally = file.tallies.get(*name).unwrap_or_else(|| panic!("no request of {name}"));
        writeln!(text, "{name}: {} requests, {} calls, 0 differ", tally.requests, tally.calls).unwrap();
        requests += tally.requests;
        calls += tally.calls;
    }
    assert_eq!(order.len(), file.tallies.len(), "a call that has no place in the program's table");
    writeln!(text, "total: {requests} requests, {calls} calls, 0 differ").unwrap();
    writeln!(text, "requests with no answer: 0\nmalformed lines: 0").unwrap();
    text
}
