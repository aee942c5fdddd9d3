//! The calls over spans without a mask: the aligned split, the counts, a span split in two, 32 flags as a number.
//!
//! Written by tests/declarations.py from crates/capi.

use super::exports;
use super::records::*;

/// Splits a span into a prefix, whole words at addresses divisible by 8, and a suffix. `address` is the address of the first byte
/// modulo 8. A span that lies in eight bytes is all prefix. With length 0 every field is 0, without any check. Refuses with 1, 2,
/// 8; every other field is then 0.
///
/// ```
/// use poruwhina::calls::aligned_new;
///
/// let split = aligned_new(&[0xFF; 24], 4, 180, 0);
/// assert_eq!((split.prefix_len, split.bulk_len, split.suffix_len), (60, 1, 56));
/// assert_eq!(aligned_new(&[0xFF; 24], 4, 180, 8).refusal, 8);
/// ```
#[inline]
pub fn aligned_new(bytes: &[u8], start: usize, length: usize, address: usize) -> SplitAnswer {
    unsafe { exports::pw_aligned_new(bytes.as_ptr(), bytes.len(), start, length, address) }
}

/// Counts the zeros of a span. `address` is the address of the first byte modulo 8; the count does not depend on it. With length
/// 0 returns 0 without any check. Refuses with 1, 2, 8; every other field is then 0.
///
/// ```
/// assert_eq!(poruwhina::calls::count_zeros(&[0x2D], 0, 6, 0).value, 2);
/// assert_eq!(poruwhina::calls::count_zeros(&[0x2D], 2, 7, 0).refusal, 2);
/// ```
#[inline]
pub fn count_zeros(bytes: &[u8], start: usize, length: usize, address: usize) -> NumberAnswer {
    unsafe { exports::pw_count_zeros(bytes.as_ptr(), bytes.len(), start, length, address) }
}

/// Counts the zeros before the first set flag of a span, or the whole length if no flag is set. `address` is the address of the
/// first byte modulo 8; the count does not depend on it. With length 0 returns 0 without any check. Refuses with 1, 2, 8; every
/// other field is then 0.
///
/// ```
/// assert_eq!(poruwhina::calls::leading_zeros(&[0x2C], 0, 6, 0).value, 2);
/// assert_eq!(poruwhina::calls::leading_zeros(&[0x2C], 0, 6, 8).refusal, 8);
/// ```
#[inline]
pub fn leading_zeros(bytes: &[u8], start: usize, length: usize, address: usize) -> NumberAnswer {
    unsafe { exports::pw_leading_zeros(bytes.as_ptr(), bytes.len(), start, length, address) }
}

/// Counts the ones before the first zero of a span, or the whole length if every flag is set. `address` is the address of the
/// first byte modulo 8; the count does not depend on it. With length 0 returns 0 without any check. Refuses with 1, 2, 8; every
/// other field is then 0.
///
/// ```
/// assert_eq!(poruwhina::calls::leading_ones(&[0x2D], 2, 4, 0).value, 2);
/// ```
#[inline]
pub fn leading_ones(bytes: &[u8], start: usize, length: usize, address: usize) -> NumberAnswer {
    unsafe { exports::pw_leading_ones(bytes.as_ptr(), bytes.len(), start, length, address) }
}

/// Counts the zeros after the last set flag of a span, or the whole length if no flag is set. `address` is the address of the
/// first byte modulo 8; the count does not depend on it. With length 0 returns 0 without any check. Refuses with 1, 2, 8; every
/// other field is then 0.
///
/// ```
/// assert_eq!(poruwhina::calls::trailing_zeros(&[0x2D], 0, 8, 0).value, 2);
/// ```
#[inline]
pub fn trailing_zeros(bytes: &[u8], start: usize, length: usize, address: usize) -> NumberAnswer {
    unsafe { exports::pw_trailing_zeros(bytes.as_ptr(), bytes.len(), start, length, address) }
}

/// Counts the ones after the last zero of a span, or the whole length if every flag is set. `address` is the address of the first
/// byte modulo 8; the count does not depend on it. With length 0 returns 0 without any check. Refuses with 1, 2, 8; every other
/// field is then 0.
///
/// ```
/// assert_eq!(poruwhina::calls::trailing_ones(&[0x2D], 0, 4, 0).value, 2);
/// ```
#[inline]
pub fn trailing_ones(bytes: &[u8], start: usize, length: usize, address: usize) -> NumberAnswer {
    unsafe { exports::pw_trailing_ones(bytes.as_ptr(), bytes.len(), start, length, address) }
}

/// Returns two spans: the first `at` flags, and the flags starting at `at`. `at` may equal the length; above it the call is
/// refused with 6. Refuses with 1, 2, 6; every other field is then 0.
///
/// ```
/// let parts = poruwhina::calls::split_at_unchecked(&[0x2D], 1, 6, 4);
/// assert_eq!((parts.first_start, parts.first_length), (1, 4));
/// assert_eq!((parts.second_start, parts.second_length), (5, 2));
/// ```
#[inline]
pub fn split_at_unchecked(bytes: &[u8], start: usize, length: usize, at: usize) -> SpansAnswer {
    unsafe { exports::pw_split_at_unchecked(bytes.as_ptr(), bytes.len(), start, length, at) }
}

/// Returns 32 flags starting at `index`, the first in the lowest bit, with zeros past the end of the span. `index` may be any
/// number. Refuses with 1, 2; every other field is then 0.
///
/// ```
/// assert_eq!(poruwhina::calls::get_u32(&[0x2D], 0, 6, 2).value, 0x0B);
/// ```
#[inline]
pub fn get_u32(bytes: &[u8], start: usize, length: usize, index: usize) -> NumberAnswer {
    unsafe { exports::pw_get_u32(bytes.as_ptr(), bytes.len(), start, length, index) }
}
