//! The driver: makes the inputs of each case, checks that the sides agree, times them and prints a line for each case.

use std::time::Duration;

use crate::cases::spans;
use crate::inputs::{Input, Kind};
use crate::timing::{Effort, Side, count, measure};

/// The programs compared on one case. `plain` is a word loop by hand, if one makes sense.
pub struct Sides<'a> {
    pub ours: Box<dyn Side + 'a>,
    pub original: Option<Box<dyn Side + 'a>>,
    pub plain: Option<Box<dyn Side + 'a>>,
}

/// The label of a line: the call, the kind of flags, where they start, and how many they are.
pub struct Label<'a> {
    pub call: &'a str,
    pub kind: &'a str,
    pub at: &'a str,
    pub length: usize,
}

/// What is done with the sides of a case once they agree: they are timed, or called between marks.
#[derive(Clone, Copy, PartialEq)]
pub enum Mode {
    Time,
    TimeQuickly,
    Count,
}

/// The settings of a run.
pub struct Driver {
    mode: Mode,
    effort: Effort,
    names: Vec<String>,
}

impl Driver {
    /// Returns a driver of the calls whose name contains one of `names`; of all calls if there are no names.
    pub fn new(mode: Mode, names: Vec<String>) -> Self {
        let (millis, batches) = if mode == Mode::TimeQuickly { (1, 3) } else { (2, 15) };
        Driver { mode, effort: Effort { batch: Duration::from_millis(millis), batches }, names }
    }

    /// Returns whether the run has this call.
    pub fn wants(&self, call: &str) -> bool {
        self.names.is_empty() || self.names.iter().any(|name| call.contains(name.as_str()))
    }

    /// Checks that the sides of a case agree, times each and prints the line: nanoseconds per call, `-` for an absent side. To count, it
    /// prints how many calls were made of each side, and whether the original and the plain loop are there.
    pub fn case(&self, label: Label, sides: Sides) {
        let Label { call, kind, at, length } = label;
        let mut present = vec![sides.ours];
        let at_original = sides.original.map(|side| push(&mut present, side));
        let at_plain = sides.plain.map(|side| push(&mut present, side));
        let expected = present[0].answer();
        for other in &mut present[1..] {
            assert!(other.answer() == expected, "the sides differ: {call}, {kind}, {at}, {length} flags");
        }
        if self.mode == Mode::Count {
            let calls = if length <= 1_000 { 100 } else { 1 };
            count(&mut present, calls);
            println!("{call}\t{kind}\t{at}\t{length}\t{calls}\t{}\t{}", at_original.is_some(), at_plain.is_some());
            return;
        }
        let times = measure(&mut present, self.effort);
        let shown = |i: Option<usize>| i.map_or("-".to_string(), |i| format!("{:.2}", times[i]));
        println!("{call}\t{kind}\t{at}\t{length}\t{:.2}\t{}\t{}", times[0], shown(at_original), shown(at_plain));
    }

    /// Runs a case for each start bit and size, with a mask for each seed; equal seeds make equal flags.
    pub fn each(&self, call: &str, kind: Kind, seeds: &[u64], sides: impl for<'a> Fn(&'a [Input]) -> Sides<'a>) {
        if !self.wants(call) {
            return;
        }
        for (start, length) in spans() {
            let masks: Vec<Input> = seeds.iter().map(|seed| Input::new(kind, start, length, *seed)).collect();
            let at = start.to_string();
            self.case(Label { call, kind: kind.name(), at: &at, length }, sides(&masks));
        }
    }
}

/// Appends an item and returns its index.
fn push<T>(list: &mut Vec<T>, item: T) -> usize {
    list.push(item);
    list.len() - 1
}
