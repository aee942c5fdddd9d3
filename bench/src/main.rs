//! Times the calls of the library, of the original Rust and plain word loops, on the same inputs.
//!
//! `bench [--quick] [NAME..]` prints a line for each case whose call has one of the names in it: call, flags, start bit, number of flags,
//! then nanoseconds per call of ours, of the original and of the plain loop, with tabs between. `bench --count [NAME..]` makes the calls
//! between marks, for `bench/instructions`. `bench table BASELINE NATIVE [DOCUMENT]`
//! makes a markdown table of two such outputs, and writes it into the document if one is named.

mod cases;
mod driver;
mod inputs;
mod plain;
mod plain_grids;
mod plain_run_ends;
mod table;
mod timing;

use driver::{Driver, Mode};

fn main() {
    let words: Vec<String> = std::env::args().skip(1).collect();
    if words.first().is_some_and(|word| word == "table") {
        return make_table(&words[1..]);
    }
    let mode = match words.first().map(String::as_str) {
        Some("--quick") => Mode::TimeQuickly,
        Some("--count") => Mode::Count,
        _ => Mode::Time,
    };
    let driver = Driver::new(mode, words.into_iter().filter(|word| !word.starts_with("--")).collect());
    cases::searches::boundary(&driver);
    cases::counts::run(&driver);
    cases::combinations::run(&driver);
    cases::searches::run(&driver);
    cases::cursors::run(&driver);
    cases::builders::run(&driver);
    cases::minutes::run(&driver);
    cases::grids::run(&driver);
    cases::run_ends::run(&driver);
}

fn make_table(words: &[String]) {
    let (baseline, native, document) = match words {
        [baseline, native] => (baseline, native, None),
        [baseline, native, document] => (baseline, native, Some(document)),
        _ => panic!("bench table BASELINE NATIVE [DOCUMENT]"),
    };
    let text = table::make(baseline, native);
    match document {
        Some(document) => table::write(document, &text),
        None => print!("{text}"),
    }
}
