//! A mask as run ends and a mask of their values, as Arrow's run-end encoded arrays have them. Ends are numbers of 32 bits with a
//! sign, and any such number gets an answer.
//!
//! Written by tests/declarations.py from crates/capi.

use super::exports;
use super::records::*;

/// Writes the frozen bytes of `length` flags at the start of `out` and returns the mask over them: flag p is the value of the
/// first run whose end is above p. `values`, with its `bytes`, has the value of each run. The zero count is unknown, or known as
/// 0 if `length` is 0; the serial is that of `values`. Refusal 13 means that an end is 0 or below or not above the one before it,
/// that the last one is below `length`, that there are no ends for a length above 0, or that `values` does not have as many flags
/// as there are ends. Only the last end is held to the length: ends above it pass. Refuses with 1, 2, 13, 3, 9; every other field
/// is then 0.
///
/// ```
/// use poruwhina::calls::{from_run_ends, try_new};
///
/// let mut out = [0xFF; 9];
/// let values = try_new(&[0x05], 0, 3).mask; // 1,0,1
/// let mask = from_run_ends(&[2, 3, 7], values, &[0x05], 5, &mut out).mask;
/// assert_eq!((mask.start, mask.length, mask.known), (0, 5, 0));
/// assert_eq!((out[0], out[8]), (0x1B, 0xFF)); // 1,1,0,1,1
/// assert_eq!(from_run_ends(&[2, 3, 7], values, &[0x05], 8, &mut out).refusal, 13);
/// assert_eq!(from_run_ends(&[2, 2, 7], values, &[0x05], 5, &mut out).refusal, 13);
/// ```
#[inline]
pub fn from_run_ends(ends: &[i32], values: Mask, bytes: &[u8], length: usize, out: &mut [u8]) -> MaskAnswer {
    unsafe {
        exports::pw_from_run_ends(ends.as_ptr(), ends.len(), values, bytes.as_ptr(), bytes.len(), length, out.as_mut_ptr(), out.len())
    }
}

/// Writes the fewest runs that have the flags of `mask`: where each run ends at the start of `ends`, and the frozen bytes of the
/// runs' flags at the start of `out`. Returns the mask of these flags, over `out`: its length is the number of runs, which is 0
/// for a mask of no flags, and the last end is the length of `mask`. Its zero count is unknown, or known as 0 if there are no
/// runs; its serial is that of `mask`. Refusal 9 means that `ends` has fewer places than there are runs, or `out` fewer than 8 *
/// ceil(runs / 64) bytes; neither is then written. Refuses with 1, 2, 3, 9; every other field is then 0.
///
/// ```
/// use poruwhina::calls::{to_run_ends, try_new};
///
/// let (mut ends, mut out) = ([9; 4], [0xFF; 9]);
/// let values = to_run_ends(try_new(&[0x1B], 0, 5).mask, &[0x1B], &mut ends, &mut out).mask; // 1,1,0,1,1
/// assert_eq!((values.length, ends), (3, [2, 3, 5, 9]));
/// assert_eq!((out[0], out[8]), (0x05, 0xFF)); // 1,0,1
/// assert_eq!(to_run_ends(try_new(&[0x1B], 0, 5).mask, &[0x1B], &mut ends[..2], &mut out).refusal, 9);
/// ```
#[inline]
pub fn to_run_ends(mask: Mask, bytes: &[u8], ends: &mut [i32], out: &mut [u8]) -> MaskAnswer {
    unsafe { exports::pw_to_run_ends(mask, bytes.as_ptr(), bytes.len(), ends.as_mut_ptr(), ends.len(), out.as_mut_ptr(), out.len()) }
}
