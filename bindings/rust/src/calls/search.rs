//! The searches for the n-th set flag of a span.
//!
//! Written by tests/declarations.py from crates/capi.

use super::exports;
use super::records::*;

/// Returns the position of the n-th set flag at or after `from`, counting from 0. `found` is false if at most `n` flags are set
/// there. `from` may exceed the length. Refuses with 1, 2; every other field is then 0.
///
/// ```
/// use poruwhina::calls::nth_set_bit_idx;
///
/// assert_eq!(nth_set_bit_idx(&[0x2D], 0, 6, 2, 0).value, 3);
/// assert!(!nth_set_bit_idx(&[0x2D], 0, 6, 4, 0).found);
/// ```
#[inline]
pub fn nth_set_bit_idx(bytes: &[u8], start: usize, length: usize, n: usize, from: usize) -> PositionAnswer {
    unsafe { exports::pw_nth_set_bit_idx(bytes.as_ptr(), bytes.len(), start, length, n, from) }
}

/// Returns the position of the n-th set flag before `end`, counting down from 0: number 0 is the set flag nearest to `end`.
/// `found` is false if at most `n` flags are set there. `end` may exceed the length. Refuses with 1, 2; every other field is then
/// 0.
///
/// ```
/// use poruwhina::calls::nth_set_bit_idx_rev;
///
/// assert_eq!(nth_set_bit_idx_rev(&[0x2D], 0, 6, 1, 5).value, 2);
/// assert_eq!(nth_set_bit_idx_rev(&[0x2D], 0, 6, 3, 900).value, 0);
/// ```
#[inline]
pub fn nth_set_bit_idx_rev(bytes: &[u8], start: usize, length: usize, n: usize, end: usize) -> PositionAnswer {
    unsafe { exports::pw_nth_set_bit_idx_rev(bytes.as_ptr(), bytes.len(), start, length, n, end) }
}
