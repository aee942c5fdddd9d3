//! The combination `and_not` at one index.
//!
//! Written by tests/declarations.py from crates/capi.

use super::exports;
use super::records::*;

/// Returns whether the flag at `index` is set in the first mask and not in the second. If `first_present` is false there is no
/// first mask, which means all ones; if `second_present` is false there is no second mask, which means all zeros. The record and
/// bytes of an absent mask are not read. Refusal 5 occurs only with both masks; without any mask nothing is refused. Refuses with
/// 1, 2, 3, 5, 6; every other field is then 0.
///
/// ```
/// use poruwhina::calls::{and_not_at, try_new};
///
/// let mask = try_new(&[0], 0, 6).mask;
/// assert!(and_not_at(true, mask, &[0x2D], true, mask, &[0x01], 2).value);
/// assert!(!and_not_at(true, mask, &[0x2D], true, mask, &[0x01], 0).value);
/// assert!(and_not_at(false, mask, &[], false, mask, &[], 9).value);
/// assert_eq!(and_not_at(true, mask, &[0x2D], false, mask, &[], 6).refusal, 6);
/// ```
#[inline]
pub fn and_not_at(
    first_present: bool, first: Mask, first_bytes: &[u8], second_present: bool, second: Mask, second_bytes: &[u8], index: usize,
) -> FlagAnswer {
    unsafe {
        exports::pw_and_not_at(
            first_present,
            first,
            first_bytes.as_ptr(),
            first_bytes.len(),
            second_present,
            second,
            second_bytes.as_ptr(),
            second_bytes.len(),
            index,
        )
    }
}
