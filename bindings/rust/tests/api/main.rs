//! Tests of the crate, which compare it with plain lists of flags.

mod appending;
mod backwards;
mod combining;
mod from_lists;
mod grids;
mod lists;
mod minutes;
mod offering;
mod operators;
mod order;
mod plain;
mod positions;
mod reading;
mod rebuilding;
mod refusing;
mod relating;
mod run_ends;
mod superseding;

use lists::{packed, patterns};
use poruwhina::Bitmap;

/// Returns a mask of the flags that starts at bit `start`, with ones around the flags if the start is even, and zeros if it is odd.
fn mask_at(flags: &[bool], start: usize) -> Bitmap {
    Bitmap::try_from_span(packed(flags, start, start.is_multiple_of(2)), start, flags.len()).expect("a list within the limit")
}

fn flags_of(mask: &Bitmap) -> Vec<bool> {
    mask.iter().collect()
}

/// Runs `test` for every length up to more than two words, several lists of each, at every start bit.
fn each_list(mut test: impl FnMut(&[bool], &Bitmap)) {
    for length in 0..=130 {
        for flags in patterns(length) {
            for start in 0..8 {
                test(&flags, &mask_at(&flags, start));
            }
        }
    }
}
