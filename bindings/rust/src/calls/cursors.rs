//! The cursors over runs, flags and positions. A step that finds nothing moves the cursor to the length.
//!
//! Written by tests/declarations.py from crates/capi.

use super::exports;
use super::records::*;

/// Returns a cursor before the first run of ones of a mask. Refuses with 1, 2, 3; every other field is then 0.
///
/// ```
/// use poruwhina::calls::{slices_new, try_new};
///
/// let mask = try_new(&[0x2D], 0, 6).mask;
/// assert_eq!(slices_new(mask, &[0x2D]).cursor.length, 6);
/// assert_eq!(slices_new(mask, &[]).refusal, 2);
/// ```
#[inline]
pub fn slices_new(mask: Mask, bytes: &[u8]) -> CursorAnswer {
    unsafe { exports::pw_slices_new(mask, bytes.as_ptr(), bytes.len()) }
}

/// Returns the next run of ones, its start in `value` and its length in `count`, and moves the cursor past it. If there is no
/// further run, `found` is false and the place is the length. Refuses with 1, 2, 6; the cursor is unchanged, and every other
/// field is 0.
///
/// ```
/// use poruwhina::calls::{slices_new, slices_next, try_new};
///
/// let bytes = [0x2D];
/// let first = slices_next(slices_new(try_new(&bytes, 0, 6).mask, &bytes).cursor, &bytes);
/// let second = slices_next(first.cursor, &bytes);
/// assert_eq!((first.value, first.count), (0, 1));
/// assert_eq!((second.value, second.count), (2, 2));
/// ```
#[inline]
pub fn slices_next(cursor: Cursor, bytes: &[u8]) -> Step {
    let answer = unsafe { exports::pw_slices_next(cursor.start, cursor.length, cursor.place, bytes.as_ptr(), bytes.len()) };
    answer.moving(cursor)
}

/// Returns a cursor before the first flag of a span. With length 0 its start, length and place are 0, without any check. Refuses
/// with 1, 2; every other field is then 0.
///
/// ```
/// use poruwhina::calls::iter_new;
///
/// assert_eq!(iter_new(&[0x2D], 2, 4).cursor.start, 2);
/// // No flags: the answer comes before any check.
/// assert_eq!(iter_new(&[], usize::MAX, 0).cursor.start, 0);
/// ```
#[inline]
pub fn iter_new(bytes: &[u8], start: usize, length: usize) -> CursorAnswer {
    unsafe { exports::pw_iter_new(bytes.as_ptr(), bytes.len(), start, length) }
}

/// Returns the next flag, 0 or 1, in `value` and moves the cursor past it. At the end `found` is false and the cursor does not
/// move. Refuses with 1, 2, 6; the cursor is unchanged, and every other field is 0.
///
/// ```
/// use poruwhina::calls::{iter_new, iter_next};
///
/// let step = iter_next(iter_new(&[0x2D], 0, 6).cursor, &[0x2D]);
/// assert_eq!((step.found, step.value, step.cursor.place), (true, 1, 1));
/// ```
#[inline]
pub fn iter_next(cursor: Cursor, bytes: &[u8]) -> Step {
    let answer = unsafe { exports::pw_iter_next(cursor.start, cursor.length, cursor.place, bytes.as_ptr(), bytes.len()) };
    answer.moving(cursor)
}

/// Skips `n` flags, returns the following one, 0 or 1, in `value` and moves the cursor past it. If there is no such flag, `found`
/// is false and the place is the length. Refuses with 1, 2, 6; the cursor is unchanged, and every other field is 0.
///
/// ```
/// use poruwhina::calls::{iter_new, iter_nth};
///
/// let cursor = iter_new(&[0x2D], 0, 6).cursor;
/// assert_eq!(iter_nth(cursor, &[0x2D], 4).value, 0);
/// assert!(!iter_nth(cursor, &[0x2D], usize::MAX).found);
/// ```
#[inline]
pub fn iter_nth(cursor: Cursor, bytes: &[u8], n: usize) -> Step {
    let answer = unsafe { exports::pw_iter_nth(cursor.start, cursor.length, cursor.place, bytes.as_ptr(), bytes.len(), n) };
    answer.moving(cursor)
}

/// Counts the ones from the cursor up to the next zero, or to the end, returns their number in `count` and moves the cursor past
/// them. `found` is true, also if `count` is 0. Refuses with 1, 2, 6; the cursor is unchanged, and every other field is 0.
///
/// ```
/// use poruwhina::calls::{iter_new, take_leading_ones};
///
/// let taken = take_leading_ones(iter_new(&[0x07], 0, 6).cursor, &[0x07]);
/// assert_eq!((taken.count, taken.cursor.place), (3, 3));
/// ```
#[inline]
pub fn take_leading_ones(cursor: Cursor, bytes: &[u8]) -> Step {
    let answer = unsafe { exports::pw_take_leading_ones(cursor.start, cursor.length, cursor.place, bytes.as_ptr(), bytes.len()) };
    answer.moving(cursor)
}

/// Counts the zeros from the cursor up to the next one, or to the end, returns their number in `count` and moves the cursor past
/// them. `found` is true, also if `count` is 0. Refuses with 1, 2, 6; the cursor is unchanged, and every other field is 0.
///
/// ```
/// use poruwhina::calls::{iter_new, take_leading_zeros};
///
/// let taken = take_leading_zeros(iter_new(&[0x38], 0, 6).cursor, &[0x38]);
/// assert_eq!((taken.count, taken.cursor.place), (3, 3));
/// ```
#[inline]
pub fn take_leading_zeros(cursor: Cursor, bytes: &[u8]) -> Step {
    let answer = unsafe { exports::pw_take_leading_zeros(cursor.start, cursor.length, cursor.place, bytes.as_ptr(), bytes.len()) };
    answer.moving(cursor)
}

/// Returns a cursor before the first position of a one in a mask of `length` flags. If `present` is false there is no mask: its
/// record and bytes are not read, the cursor has every position below `length`, as in Arrow, and 1 is the only refusal. In
/// [`may_reassign`](super::may_reassign) no permission mask means no truck. Refuses with 1, 2, 3, 5; every other field is then 0.
///
/// ```
/// use poruwhina::calls::{bitmap_new, true_idx_new};
///
/// assert_eq!(true_idx_new(3, false, bitmap_new(), &[]).cursor.masked, 0);
/// assert_eq!(true_idx_new(3, true, bitmap_new(), &[]).refusal, 5);
/// ```
#[inline]
pub fn true_idx_new(length: usize, present: bool, mask: Mask, bytes: &[u8]) -> CursorAnswer {
    unsafe { exports::pw_true_idx_new(length, present, mask, bytes.as_ptr(), bytes.len()) }
}

/// Returns the next position of a one in `value` and moves the cursor past it. If there is no further one, `found` is false and
/// the place is the length. If `masked` is 0 there is no mask: every position is returned, and refusal 2 does not occur. Refuses
/// with 1, 2, 6; the cursor is unchanged, and every other field is 0.
///
/// ```
/// use poruwhina::calls::{true_idx_new, true_idx_next, try_new};
///
/// let mask = try_new(&[0x2C], 0, 6).mask;
/// let step = true_idx_next(true_idx_new(6, true, mask, &[0x2C]).cursor, &[0x2C]);
/// assert_eq!((step.found, step.value), (true, 2));
/// ```
#[inline]
pub fn true_idx_next(cursor: Cursor, bytes: &[u8]) -> Step {
    let answer =
        unsafe { exports::pw_true_idx_next(cursor.start, cursor.length, cursor.place, cursor.masked, bytes.as_ptr(), bytes.len()) };
    answer.moving(cursor)
}

/// Writes the next positions of ones at the start of `out`, as many as there are and it has room for, and returns their number in
/// `count`. They are what as many calls of [`true_idx_next`] return; the rest of `out` is unchanged. The cursor moves past the
/// last of them, or to the length if `out` is not filled; if `out` is empty it does not move. `found` is true. If `masked` is 0
/// there is no mask: every position is written, and refusal 2 does not occur. Refuses with 1, 2, 6; the cursor is unchanged, and
/// every other field is 0.
///
/// ```
/// use poruwhina::calls::{true_idx_new, true_idx_next_chunk, try_new};
///
/// let cursor = true_idx_new(6, true, try_new(&[0x2D], 0, 6).mask, &[0x2D]).cursor;
/// let mut out = [9; 3];
/// let three = true_idx_next_chunk(cursor, &[0x2D], &mut out);
/// assert_eq!((three.count, three.cursor.place, out), (3, 4, [0, 2, 3]));
/// let rest = true_idx_next_chunk(three.cursor, &[0x2D], &mut out);
/// assert_eq!((rest.count, rest.cursor.place, out), (1, 6, [5, 2, 3]));
/// ```
#[inline]
pub fn true_idx_next_chunk(cursor: Cursor, bytes: &[u8], out: &mut [u32]) -> Step {
    let answer = unsafe {
        exports::pw_true_idx_next_chunk(
            cursor.start,
            cursor.length,
            cursor.place,
            cursor.masked,
            bytes.as_ptr(),
            bytes.len(),
            out.as_mut_ptr(),
            out.len(),
        )
    };
    answer.moving(cursor)
}
