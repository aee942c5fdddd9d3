//! The window of minutes: in how many of the last minutes each truck was busy.
//!
//! Written by tests/declarations.py from crates/capi.

use super::exports;
use super::records::*;

/// Writes an empty window, all words and counts 0, to both arrays and returns its numbers. It keeps the words of the last `width`
/// minutes; `width` must be 1 to 256. Refuses with 16; every other field is then 0, and both arrays stay as they are.
///
/// ```
/// use poruwhina::calls::activity_new;
///
/// let (mut words, mut counts) = ([7; 256], [7; 64]);
/// assert_eq!(activity_new(&mut words, &mut counts, 257).refusal, 16);
/// assert_eq!((words, counts), ([7; 256], [7; 64]));
/// assert_eq!(activity_new(&mut words, &mut counts, 60).width, 60);
/// assert_eq!((words, counts), ([0; 256], [0; 64]));
/// ```
#[inline]
pub fn activity_new(words: &mut [u64; 256], counts: &mut [u32; 64], width: usize) -> WindowAnswer {
    unsafe { exports::pw_activity_new(words, counts, width) }
}

/// Writes `word`, whose bit j is the flag of truck j in the next minute, into the window, updates the counts and returns the new
/// numbers. The oldest word is replaced if the window already has `width` words. `place`, `fill` and `width` are those that the
/// call before returned. Refuses with 16; the window is unchanged: place, fill, width and both arrays.
///
/// ```
/// use poruwhina::calls::{WindowAnswer, activity_new, activity_push_minute};
///
/// let (mut words, mut counts) = ([0; 256], [0; 64]);
/// let empty = activity_new(&mut words, &mut counts, 2);
/// let one = activity_push_minute(&mut words, &mut counts, empty.place, empty.fill, empty.width, 0b101);
/// assert_eq!(one, WindowAnswer { refusal: 0, place: 1, fill: 1, width: 2 });
/// assert_eq!((words[0], counts[0], counts[1], counts[2]), (0b101, 1, 0, 1));
///
/// // A count that is one off is told apart, and the window stays as it is.
/// counts[1] = 1;
/// assert_eq!(activity_push_minute(&mut words, &mut counts, 1, 1, 2, 0b1), WindowAnswer { refusal: 16, ..one });
/// assert_eq!((words[1], counts[1]), (0, 1));
/// ```
#[inline]
pub fn activity_push_minute(
    words: &mut [u64; 256], counts: &mut [u32; 64], place: usize, fill: usize, width: usize, word: u64,
) -> WindowAnswer {
    unsafe { exports::pw_activity_push_minute(words, counts, place, fill, width, word) }
}

/// Writes to `out`, for each of the 64 flags, the number of kept words that have it set. Returns 0, or the number of the refusal.
/// `place`, `fill` and `width` are those that the call before returned. Refuses with 16; `out` then stays as it is.
///
/// ```
/// use poruwhina::calls::{activity_counts, activity_new};
///
/// let (mut words, mut counts, mut out) = ([0; 256], [0; 64], [7; 64]);
/// activity_new(&mut words, &mut counts, 2);
/// assert_eq!(activity_counts(&words, &counts, 1, 0, 2, &mut out), 16);
/// assert_eq!(out, [7; 64]);
/// assert_eq!(activity_counts(&words, &counts, 0, 0, 2, &mut out), 0);
/// assert_eq!(out, [0; 64]);
/// ```
#[inline]
pub fn activity_counts(words: &[u64; 256], counts: &[u32; 64], place: usize, fill: usize, width: usize, out: &mut [u32; 64]) -> u8 {
    unsafe { exports::pw_activity_counts(words, counts, place, fill, width, out) }
}
