//! The words of a span, and the flags after the last whole one.
//!
//! Written by tests/declarations.py from crates/capi.

use super::exports;
use super::records::*;

/// Returns a cursor at the first word of a span. Refuses with 1, 2; every other field is then 0.
///
/// ```
/// let cursor = poruwhina::calls::chunks_new(&[0xFF; 9], 3, 69).cursor;
/// assert_eq!((cursor.start, cursor.length, cursor.place), (3, 69, 0));
/// ```
#[inline]
pub fn chunks_new(bytes: &[u8], start: usize, length: usize) -> CursorAnswer {
    unsafe { exports::pw_chunks_new(bytes.as_ptr(), bytes.len(), start, length) }
}

/// Returns a cursor at the first word of the first `length` flags of `bytes`. Refuses with 1, 2; every other field is then 0.
///
/// ```
/// use poruwhina::calls::{chunks_new, chunks_new_exact};
///
/// assert_eq!(chunks_new_exact(&[0xFF; 9], 69), chunks_new(&[0xFF; 9], 0, 69));
/// ```
#[inline]
pub fn chunks_new_exact(bytes: &[u8], length: usize) -> CursorAnswer {
    unsafe { exports::pw_chunks_new_exact(bytes.as_ptr(), bytes.len(), length) }
}

/// Returns the next word in `value` and moves the cursor one word on. After the last whole word `found` is false and the cursor
/// does not move. Refuses with 1, 2, 6; the cursor is unchanged, and every other field is 0.
///
/// ```
/// use poruwhina::calls::{chunks_new, chunks_next};
///
/// let bytes = [0xFF; 9];
/// let first = chunks_next(chunks_new(&bytes, 3, 69).cursor, &bytes);
/// assert_eq!((first.found, first.value), (true, u64::MAX));
/// assert!(!chunks_next(first.cursor, &bytes).found);
/// ```
#[inline]
pub fn chunks_next(cursor: Cursor, bytes: &[u8]) -> Step {
    let answer = unsafe { exports::pw_chunks_next(cursor.start, cursor.length, cursor.place, bytes.as_ptr(), bytes.len()) };
    answer.moving(cursor)
}

/// Returns the last length mod 64 flags of the span as a word in `value`, zero above them, and their number in `count`. `found`
/// is true. The result does not depend on the place, and the cursor does not move. Refuses with 1, 2, 6; the cursor is unchanged,
/// and every other field is 0.
///
/// ```
/// use poruwhina::calls::{chunks_new, chunks_remainder};
///
/// let bytes = [0xFF; 9];
/// let rest = chunks_remainder(chunks_new(&bytes, 3, 69).cursor, &bytes);
/// assert_eq!((rest.value, rest.count), (0b11111, 5));
/// ```
#[inline]
pub fn chunks_remainder(cursor: Cursor, bytes: &[u8]) -> Step {
    let answer = unsafe { exports::pw_chunks_remainder(cursor.start, cursor.length, cursor.place, bytes.as_ptr(), bytes.len()) };
    answer.moving(cursor)
}
