//! The calls on run ends, compared with plain versions that make the same checks. The kind of a line is that of the flags.

use poruwhina::calls::{self, Mask};

use crate::cases::STARTS;
use crate::driver::{Driver, Label, Sides};
use crate::inputs::{Input, Kind, words_of};
use crate::plain_run_ends::{self, Flags};
use crate::timing::{Answer, side};

/// Runs of about 30 and of about 3,000 flags, and random flags.
const KINDS: [Kind; 3] = [Kind::Runs, Kind::LongRuns, Kind::Half];

const SIZES: [usize; 2] = [40, 4_194_304];

/// Run ends with their values, which start at a bit of their bytes, and places for the flags.
struct Reading {
    ends: Vec<i32>,
    bytes: Vec<u8>,
    start: usize,
    length: usize,
    out: Vec<u8>,
}

impl Reading {
    /// Returns the runs of an input.
    fn new(input: &Input) -> Self {
        let (start, length) = (input.start, input.length);
        let (mut ends, mut bytes) = (vec![0; length], vec![0xFF; (start + length).div_ceil(64) * 8]);
        let mut values = vec![0; length.div_ceil(64) * 8];
        let flags = Flags { bytes: input.bytes(), start, length };
        let runs = plain_run_ends::write(flags, &mut ends, &mut values).unwrap();
        ends.truncate(runs);
        bytes.truncate((start + runs).div_ceil(64) * 8);
        for k in (0..runs).filter(|k| values[k / 8] >> (k % 8) & 1 == 0) {
            bytes[(start + k) / 8] &= !(1 << ((start + k) % 8));
        }
        Reading { ends, bytes, start, length, out: vec![0xA5; length.div_ceil(64) * 8] }
    }

    fn mask(&self) -> Mask {
        Mask { start: self.start, length: self.ends.len(), ..Mask::default() }
    }
}

/// A mask, with places for its run ends and their values.
struct Writing<'a> {
    input: &'a Input,
    ends: Vec<i32>,
    out: Vec<u8>,
}

impl<'a> Writing<'a> {
    fn new(input: &'a Input) -> Self {
        Writing { input, ends: vec![-7; input.length], out: vec![0xA5; input.length.div_ceil(64) * 8] }
    }

    fn written(&mut self, runs: usize) -> Answer {
        let ends = self.ends[..runs].iter().map(|&end| end as u64);
        ends.chain(words_of(&self.out, 0, runs)).collect()
    }
}

pub fn run(driver: &Driver) {
    for kind in KINDS {
        for start in STARTS {
            for length in SIZES {
                if driver.wants("from_run_ends") || driver.wants("to_run_ends") {
                    each(driver, kind, &Input::new(kind, start, length, 1));
                }
            }
        }
    }
}

/// Times both calls on one list of flags: its runs are read, and written.
fn each(driver: &Driver, kind: Kind, input: &Input) {
    let (start, length) = (input.start, input.length);
    let at = start.to_string();
    let case = |call, ours, plain| {
        if driver.wants(call) {
            driver.case(Label { call, kind: kind.name(), at: &at, length }, Sides { ours, original: None, plain: Some(plain) });
        }
    };
    case(
        "from_run_ends",
        side(
            Reading::new(input),
            |r| calls::from_run_ends(&r.ends, r.mask(), &r.bytes, r.length, &mut r.out).mask.length,
            |r, n| words_of(&r.out, 0, n),
        ),
        side(
            Reading::new(input),
            |r| {
                let values = Flags { bytes: &r.bytes, start: r.start, length: r.ends.len() };
                plain_run_ends::read(&r.ends, values, r.length, &mut r.out).unwrap()
            },
            |r, n| words_of(&r.out, 0, n),
        ),
    );
    case(
        "to_run_ends",
        side(
            Writing::new(input),
            |w| calls::to_run_ends(w.input.mask, w.input.bytes(), &mut w.ends, &mut w.out).mask.length,
            |w, runs| w.written(runs),
        ),
        side(
            Writing::new(input),
            |w| {
                let Input { start, length, .. } = *w.input;
                let flags = Flags { bytes: w.input.bytes(), start, length };
                plain_run_ends::write(flags, &mut w.ends, &mut w.out).unwrap()
            },
            |w, runs| w.written(runs),
        ),
    );
}
