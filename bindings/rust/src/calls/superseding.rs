//! Which of two masks supersedes the other. The C interface has no references: the part of the bytes is returned as the slice
//! that it is of, its first byte and the byte past its last.
//!
//! Written by tests/declarations.py from crates/capi.

use super::exports;
use super::records::*;

/// Returns the winner of two masks of one operator, the one with the larger serial, over the part of its bytes that holds it.
/// With equal serials and equal flags the first wins; with equal serials and different flags the call is refused with 14. Both
/// masks are checked, the loser too. Refuses with 1, 2, 3, 14; every other field is then 0.
///
/// ```
/// use poruwhina::calls::{Mask, superseding, try_new};
///
/// let bytes = [0x2D];
/// let six = try_new(&bytes, 0, 6).mask;
/// let four = Mask { serial: 1, ..try_new(&bytes, 2, 4).mask };
/// assert!(superseding(six, &bytes, four, &bytes).second);
/// assert_eq!(superseding(six, &bytes, Mask { serial: 0, ..four }, &bytes).refusal, 14);
/// ```
#[inline]
pub fn superseding(first: Mask, first_bytes: &[u8], second: Mask, second_bytes: &[u8]) -> PartAnswer {
    unsafe { exports::pw_superseding(first, first_bytes.as_ptr(), first_bytes.len(), second, second_bytes.as_ptr(), second_bytes.len()) }
}
