//! Cursors and iterators read to their end. Each step of ours is a call, except for positions, of which a call can return many; the
//! original's `next` is inlined.

use original::bitmap::iterator::TrueIdxIter;
use original::bitmap::utils::{BitChunks, BitmapIter, SlicesIterator};
use poruwhina::calls::{self, Cursor, Step};

use crate::driver::{Driver, Sides};
use crate::inputs::{Input, Kind};
use crate::timing::{Answer, Side, side, walk};

/// Returns the steps of a cursor up to the first that finds nothing.
fn steps<'a>(mut cursor: Cursor, bytes: &'a [u8], next: impl Fn(Cursor, &[u8]) -> Step + 'a) -> impl Iterator<Item = Step> + 'a {
    std::iter::from_fn(move || {
        let step = next(cursor, bytes);
        cursor = step.cursor;
        step.found.then_some(step)
    })
}

/// Returns a run as one word.
fn run_of(start: usize, length: usize) -> u64 {
    start as u64 ^ (length as u64) << 32
}

fn original_positions(m: &Input) -> (u64, impl Iterator<Item = u64> + '_) {
    (0, TrueIdxIter::new(m.length, Some(&m.bitmap)).map(|at| at as u64))
}

/// Returns a side that writes all positions of the mask to a buffer of exactly their number, and returns how many it wrote.
fn written<'a>(m: &'a Input, write: impl Fn(&Input, &mut [u32]) -> usize + 'a) -> Box<dyn Side + 'a> {
    let out = vec![u32::MAX; m.length - m.zeros];
    side((m, out), move |(m, out)| write(m, out), |(_, out), count| -> Answer { out[..count].iter().map(|at| u64::from(*at)).collect() })
}

pub fn run(driver: &Driver) {
    driver.each("BitChunks, all words", Kind::Half, &[1], |m| Sides {
        ours: walk(&m[0], |m| {
            let cursor = calls::chunks_new(m.bytes(), m.start, m.length).cursor;
            let rest = calls::chunks_remainder(cursor, m.bytes()).value;
            (rest, steps(cursor, m.bytes(), calls::chunks_next).map(|step| step.value))
        }),
        original: Some(walk(&m[0], |m| {
            let chunks = BitChunks::<u64>::new(m.bytes(), m.start, m.length);
            (chunks.remainder(), chunks)
        })),
        plain: None,
    });
    for kind in [Kind::Half, Kind::Runs] {
        driver.each("SlicesIterator, all runs", kind, &[1], |m| Sides {
            ours: walk(&m[0], |m| {
                let cursor = calls::slices_new(m.mask, m.bytes()).cursor;
                (0, steps(cursor, m.bytes(), calls::slices_next).map(|step| run_of(step.value as usize, step.count)))
            }),
            original: Some(walk(&m[0], |m| (0, SlicesIterator::new(&m.bitmap).map(|(start, length)| run_of(start, length))))),
            plain: None,
        });
    }
    for kind in [Kind::Sparse, Kind::Half, Kind::Dense] {
        driver.each("TrueIdxIter, all positions", kind, &[1], |m| Sides {
            ours: walk(&m[0], |m| (0, m.held.true_idx_iter().map(|at| at as u64))),
            original: Some(walk(&m[0], original_positions)),
            plain: None,
        });
        driver.each("TrueIdxIter, each position by a call", kind, &[1], |m| Sides {
            ours: walk(&m[0], |m| {
                let cursor = calls::true_idx_new(m.length, true, m.mask, m.bytes()).cursor;
                (0, steps(cursor, m.bytes(), calls::true_idx_next).map(|step| step.value))
            }),
            original: Some(walk(&m[0], original_positions)),
            plain: None,
        });
        driver.each("TrueIdxIter::next_chunk, all positions", kind, &[1], |m| Sides {
            ours: written(&m[0], |m, out| {
                let cursor = calls::true_idx_new(m.length, true, m.mask, m.bytes()).cursor;
                calls::true_idx_next_chunk(cursor, m.bytes(), out).count
            }),
            original: Some(written(&m[0], |m, out| {
                let mut count = 0;
                for (entry, at) in out.iter_mut().zip(TrueIdxIter::new(m.length, Some(&m.bitmap))) {
                    *entry = at as u32;
                    count += 1;
                }
                count
            })),
            plain: None,
        });
    }
    driver.each("BitmapIter, all flags", Kind::Half, &[1], |m: &[Input]| Sides {
        ours: walk(&m[0], |m| {
            let cursor = calls::iter_new(m.bytes(), m.start, m.length).cursor;
            (0, steps(cursor, m.bytes(), calls::iter_next).map(|step| step.value))
        }),
        original: Some(walk(&m[0], |m| (0, BitmapIter::new(m.bytes(), m.start, m.length).map(u64::from)))),
        plain: None,
    });
}
