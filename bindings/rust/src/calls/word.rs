//! The calls of words. They refuse nothing.
//!
//! Written by tests/declarations.py from crates/capi.

use super::exports;
use super::records::*;

/// Loads the first eight bytes of `part` as a little-endian word, padding a shorter slice with zeros.
///
/// ```
/// assert_eq!(poruwhina::calls::load_padded_le_u64(&[0x2D, 0x01]), 0x012D);
/// ```
#[inline]
pub fn load_padded_le_u64(part: &[u8]) -> u64 {
    unsafe { exports::pw_load_padded_le_u64(part.as_ptr(), part.len()) }
}

/// Returns 64 flags: those of `current` starting at `offset`, then the low flags of `next`. An offset of 0, or of 64 or more,
/// returns `current`.
///
/// ```
/// use poruwhina::calls::merge_reversed;
///
/// assert_eq!(merge_reversed(0xA0, 0x03, 4), 0x3000_0000_0000_000A);
/// assert_eq!(merge_reversed(0xA0, 0x03, 64), 0xA0);
/// ```
#[inline]
pub fn merge_reversed(current: u64, next: u64, offset: usize) -> u64 {
    unsafe { exports::pw_merge_reversed(current, next, offset) }
}

/// Returns in `value` the position of set bit `n` of the word `w`, counting from 0. If at most `n` bits are set, `found` is false
/// and `ones` is the number of set bits. Refuses nothing.
///
/// ```
/// use poruwhina::calls::nth_set_bit_u64;
///
/// assert_eq!(nth_set_bit_u64(0x2D, 2).position(), Ok(3));
/// assert_eq!(nth_set_bit_u64(0x2D, 4).position().unwrap_err().ones, 4);
/// ```
#[inline]
pub fn nth_set_bit_u64(w: u64, n: u64) -> NthAnswer {
    unsafe { exports::pw_nth_set_bit_u64(w, n) }
}

/// Returns in `value` the position of set bit `n` of the 32-bit word `w`, counting from 0. If at most `n` bits are set, `found`
/// is false and `ones` is the number of set bits. Refuses nothing.
///
/// ```
/// use poruwhina::calls::nth_set_bit_u32;
///
/// assert_eq!(nth_set_bit_u32(0x8000_0001, 1).position(), Ok(31));
/// assert_eq!(nth_set_bit_u32(0x8000_0001, 2).position().unwrap_err().ones, 2);
/// ```
#[inline]
pub fn nth_set_bit_u32(w: u32, n: u32) -> NthAnswer {
    unsafe { exports::pw_nth_set_bit_u32(w, n) }
}
