//! The calls that make, slice, count and compare masks.
//!
//! Written by tests/declarations.py from crates/capi.

use super::exports;
use super::records::*;

/// Returns the mask of no flags, its zero count known as 0.
///
/// ```
/// assert_eq!(poruwhina::calls::bitmap_new().known, 1);
/// ```
#[inline]
pub fn bitmap_new() -> Mask {
    unsafe { exports::pw_bitmap_new() }
}

/// Writes the frozen bytes of `length` zeros at the start of `out` and returns the mask over them, its zero count known. Refuses
/// with 1, 9; every other field is then 0.
///
/// ```
/// let mut out = [0xFF; 16];
/// let mask = poruwhina::calls::new_zeroed(6, &mut out).mask;
/// assert_eq!((mask.length, mask.zeros), (6, 6));
/// assert_eq!((out[..8].to_vec(), out[8]), (vec![0; 8], 0xFF));
/// ```
#[inline]
pub fn new_zeroed(length: usize, out: &mut [u8]) -> MaskAnswer {
    unsafe { exports::pw_new_zeroed(length, out.as_mut_ptr(), out.len()) }
}

/// Returns the mask of the `length` flags of `bytes` that start at bit `start`. Its zero count is unknown, or known as 0 if
/// `length` is 0. Refuses with 1, 2; every other field is then 0.
///
/// ```
/// use poruwhina::calls::try_new;
///
/// assert_eq!(try_new(&[0x2D], 2, 6).mask.known, 0);
/// assert_eq!(try_new(&[0x2D], 2, 7).refusal, 2);
/// ```
#[inline]
pub fn try_new(bytes: &[u8], start: usize, length: usize) -> MaskAnswer {
    unsafe { exports::pw_try_new(bytes.as_ptr(), bytes.len(), start, length) }
}

/// Returns the mask of the `length` flags of `mask` that start at its flag `offset`, over the same bytes. Its zero count may be
/// unknown although that of `mask` is known. Refuses with 1, 2, 3, 6, 7; the mask is unchanged, every field of it.
///
/// ```
/// use poruwhina::calls::{slice, try_new};
///
/// let mask = try_new(&[0x2D], 0, 6).mask;
/// assert_eq!(slice(mask, &[0x2D], 2, 4).mask.start, 2);
/// assert_eq!(slice(mask, &[0x2D], 2, 5).refusal, 6);
/// ```
#[inline]
pub fn slice(mask: Mask, bytes: &[u8], offset: usize, length: usize) -> MaskAnswer {
    unsafe { exports::pw_slice(mask, bytes.as_ptr(), bytes.len(), offset, length) }
}

/// Returns the number of zeros of `mask`, and the mask with that count stored. Refuses with 1, 2, 3; the mask is unchanged, every
/// field of it, and `zeros` is 0.
///
/// ```
/// use poruwhina::calls::{try_new, unset_bits};
///
/// assert_eq!(unset_bits(try_new(&[0x2D], 2, 4).mask, &[0x2D]).zeros, 1);
/// ```
#[inline]
pub fn unset_bits(mask: Mask, bytes: &[u8]) -> ZerosAnswer {
    unsafe { exports::pw_unset_bits(mask, bytes.as_ptr(), bytes.len()) }
}

/// Returns whether two masks have equal lengths and equal flags. Unequal lengths are not refused, and serials are ignored.
/// Refuses with 1, 2, 3; every other field is then 0.
///
/// ```
/// use poruwhina::calls::{eq, try_new};
///
/// let (a, b) = (try_new(&[0x2D], 2, 4).mask, try_new(&[0x0B], 0, 4).mask);
/// assert!(eq(a, &[0x2D], b, &[0x0B]).value);
/// ```
#[inline]
pub fn eq(lhs: Mask, lhs_bytes: &[u8], rhs: Mask, rhs_bytes: &[u8]) -> FlagAnswer {
    unsafe { exports::pw_eq(lhs, lhs_bytes.as_ptr(), lhs_bytes.len(), rhs, rhs_bytes.as_ptr(), rhs_bytes.len()) }
}

/// Counts the flags of a mask that differ from the next flag. Refuses with 1, 2, 3; every other field is then 0.
///
/// ```
/// use poruwhina::calls::{num_edges, try_new};
///
/// assert_eq!(num_edges(try_new(&[0x2D], 0, 6).mask, &[0x2D]).value, 4);
/// ```
#[inline]
pub fn num_edges(mask: Mask, bytes: &[u8]) -> NumberAnswer {
    unsafe { exports::pw_num_edges(mask, bytes.as_ptr(), bytes.len()) }
}

/// Counts the flags that are set in both of two masks of equal lengths. Refuses with 1, 2, 3, 5; every other field is then 0.
///
/// ```
/// use poruwhina::calls::{num_intersections_with, try_new};
///
/// let mask = try_new(&[0], 0, 6).mask;
/// assert_eq!(num_intersections_with(mask, &[0x2D], mask, &[0x0F]).value, 3);
/// ```
#[inline]
pub fn num_intersections_with(lhs: Mask, lhs_bytes: &[u8], rhs: Mask, rhs_bytes: &[u8]) -> NumberAnswer {
    unsafe { exports::pw_num_intersections_with(lhs, lhs_bytes.as_ptr(), lhs_bytes.len(), rhs, rhs_bytes.as_ptr(), rhs_bytes.len()) }
}
