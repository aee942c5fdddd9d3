//! The combinations of masks of equal lengths. The mask returned has start 0 and the largest of their serials.
//!
//! Written by tests/declarations.py from crates/capi.

use super::exports;
use super::records::*;

/// Writes which flags are set in both masks, as frozen bytes at the start of `out`, and returns the mask over them. Refuses with
/// 1, 2, 3, 5, 9; every other field is then 0.
///
/// ```
/// use poruwhina::calls::{and, try_new};
///
/// // of 1,1,0 and 1,0,0
/// let mask = try_new(&[0], 0, 3).mask;
/// let mut out = [0; 8];
/// and(mask, &[0x03], mask, &[0x01], &mut out);
/// assert_eq!(out[0], 0x01);
/// ```
#[inline]
pub fn and(lhs: Mask, lhs_bytes: &[u8], rhs: Mask, rhs_bytes: &[u8], out: &mut [u8]) -> MaskAnswer {
    unsafe {
        exports::pw_and(lhs, lhs_bytes.as_ptr(), lhs_bytes.len(), rhs, rhs_bytes.as_ptr(), rhs_bytes.len(), out.as_mut_ptr(), out.len())
    }
}

/// Writes which flags are set in the first mask and not in the second, as frozen bytes at the start of `out`, and returns the
/// mask over them. Refuses with 1, 2, 3, 5, 9; every other field is then 0.
///
/// ```
/// use poruwhina::calls::{and_not, try_new};
///
/// // of 0,0,1 and 1,0,0
/// let mask = try_new(&[0], 0, 3).mask;
/// let mut out = [0; 8];
/// and_not(mask, &[0x04], mask, &[0x01], &mut out);
/// assert_eq!(out[0], 0x04);
/// ```
#[inline]
pub fn and_not(lhs: Mask, lhs_bytes: &[u8], rhs: Mask, rhs_bytes: &[u8], out: &mut [u8]) -> MaskAnswer {
    unsafe {
        exports::pw_and_not(lhs, lhs_bytes.as_ptr(), lhs_bytes.len(), rhs, rhs_bytes.as_ptr(), rhs_bytes.len(), out.as_mut_ptr(), out.len())
    }
}

/// Writes which flags are set in at least one of two masks, as frozen bytes at the start of `out`, and returns the mask over
/// them. Refuses with 1, 2, 3, 5, 9; every other field is then 0.
///
/// ```
/// use poruwhina::calls::{or, try_new};
///
/// // of 0,0,1 and 1,0,0
/// let mask = try_new(&[0], 0, 3).mask;
/// let mut out = [0; 8];
/// or(mask, &[0x04], mask, &[0x01], &mut out);
/// assert_eq!(out[0], 0x05);
/// ```
#[inline]
pub fn or(lhs: Mask, lhs_bytes: &[u8], rhs: Mask, rhs_bytes: &[u8], out: &mut [u8]) -> MaskAnswer {
    unsafe {
        exports::pw_or(lhs, lhs_bytes.as_ptr(), lhs_bytes.len(), rhs, rhs_bytes.as_ptr(), rhs_bytes.len(), out.as_mut_ptr(), out.len())
    }
}

/// Writes which flags are set in the first mask or not set in the second, as frozen bytes at the start of `out`, and returns the
/// mask over them. Refuses with 1, 2, 3, 5, 9; every other field is then 0.
///
/// ```
/// use poruwhina::calls::{or_not, try_new};
///
/// // of 0,0,1 and 1,0,0
/// let mask = try_new(&[0], 0, 3).mask;
/// let mut out = [0; 8];
/// or_not(mask, &[0x04], mask, &[0x01], &mut out);
/// assert_eq!(out[0], 0x06);
/// ```
#[inline]
pub fn or_not(lhs: Mask, lhs_bytes: &[u8], rhs: Mask, rhs_bytes: &[u8], out: &mut [u8]) -> MaskAnswer {
    unsafe {
        exports::pw_or_not(lhs, lhs_bytes.as_ptr(), lhs_bytes.len(), rhs, rhs_bytes.as_ptr(), rhs_bytes.len(), out.as_mut_ptr(), out.len())
    }
}

/// Writes which flags differ between two masks, as frozen bytes at the start of `out`, and returns the mask over them. Refuses
/// with 1, 2, 3, 5, 9; every other field is then 0.
///
/// ```
/// use poruwhina::calls::{xor, try_new};
///
/// // of 0,0,1 and 1,0,0
/// let mask = try_new(&[0], 0, 3).mask;
/// let mut out = [0; 8];
/// xor(mask, &[0x04], mask, &[0x01], &mut out);
/// assert_eq!(out[0], 0x05);
/// ```
#[inline]
pub fn xor(lhs: Mask, lhs_bytes: &[u8], rhs: Mask, rhs_bytes: &[u8], out: &mut [u8]) -> MaskAnswer {
    unsafe {
        exports::pw_xor(lhs, lhs_bytes.as_ptr(), lhs_bytes.len(), rhs, rhs_bytes.as_ptr(), rhs_bytes.len(), out.as_mut_ptr(), out.len())
    }
}

/// Writes each flag of a mask inverted, as frozen bytes at the start of `out`, and returns the mask over them. Refuses with 1, 2,
/// 3, 9; every other field is then 0.
///
/// ```
/// use poruwhina::calls::{not, try_new};
///
/// let mut out = [0; 8];
/// not(try_new(&[0x2D], 0, 6).mask, &[0x2D], &mut out);
/// assert_eq!(out[0], 0x12);
/// ```
#[inline]
pub fn not(mask: Mask, bytes: &[u8], out: &mut [u8]) -> MaskAnswer {
    unsafe { exports::pw_not(mask, bytes.as_ptr(), bytes.len(), out.as_mut_ptr(), out.len()) }
}

/// Writes the flag of `truthy` where the selector's is set, else that of `falsy`, as frozen bytes at the start of `out`, and
/// returns the mask over them. Refuses with 1, 2, 3, 5, 9; every other field is then 0.
///
/// ```
/// use poruwhina::calls::{select, try_new};
///
/// let mask = try_new(&[0], 0, 4).mask;
/// let mut out = [0; 8];
/// select(mask, &[0x05], mask, &[0x03], mask, &[0x0E], &mut out);
/// assert_eq!(out[0], 0x0B);
/// ```
#[inline]
pub fn select(
    selector: Mask, selector_bytes: &[u8], truthy: Mask, truthy_bytes: &[u8], falsy: Mask, falsy_bytes: &[u8], out: &mut [u8],
) -> MaskAnswer {
    unsafe {
        exports::pw_select(
            selector,
            selector_bytes.as_ptr(),
            selector_bytes.len(),
            truthy,
            truthy_bytes.as_ptr(),
            truthy_bytes.len(),
            falsy,
            falsy_bytes.as_ptr(),
            falsy_bytes.len(),
            out.as_mut_ptr(),
            out.len(),
        )
    }
}

/// Writes the flag of `truthy` where the selector's is set, else `flag`, as frozen bytes at the start of `out`, and returns the
/// mask over them. Refuses with 1, 2, 3, 5, 9; every other field is then 0.
///
/// ```
/// use poruwhina::calls::{select_constant, try_new};
///
/// let mask = try_new(&[0], 0, 4).mask;
/// let mut out = [0; 8];
/// select_constant(mask, &[0x05], mask, &[0x03], true, &mut out);
/// assert_eq!(out[0], 0x0B);
/// ```
#[inline]
pub fn select_constant(selector: Mask, selector_bytes: &[u8], truthy: Mask, truthy_bytes: &[u8], flag: bool, out: &mut [u8]) -> MaskAnswer {
    unsafe {
        exports::pw_select_constant(
            selector,
            selector_bytes.as_ptr(),
            selector_bytes.len(),
            truthy,
            truthy_bytes.as_ptr(),
            truthy_bytes.len(),
            flag,
            out.as_mut_ptr(),
            out.len(),
        )
    }
}
