//! The search for a flag that is set in one mask and not in another.
//!
//! Written by tests/declarations.py from crates/capi.

use super::exports;
use super::records::*;

/// Returns the first position at or after `from` that is set in the first mask and not in the second, else the first such
/// position from 0; `found` is false if there is no such position. If `second_present` is false there is no second mask, which
/// means all zeros: its record and bytes are not read, and refusal 5 does not occur. `windows` counts the windows of 32 flags
/// read: they begin at `from` and every 32 flags after it, below the length, then at 0 and every 32 flags after it, below `from`;
/// the last one read holds the position, or all are read. A `from` equal to the length is allowed; above it the call is refused
/// with 6. Refuses with 1, 2, 3, 5, 6; every other field is then 0.
///
/// ```
/// use poruwhina::calls::{next_and_not, try_new};
///
/// let mask = try_new(&[0; 5], 0, 40).mask;
/// let (permitted, revoked) = ([0x08, 0, 0, 0, 0x48], [0x08, 0, 0, 0, 0x40]); // 3, 35, 38 and 3, 38
/// let found = next_and_not(mask, &permitted, true, mask, &revoked, 36);
/// assert_eq!((found.position, found.windows), (35, 3)); // windows at 36, 0 and 32
/// assert_eq!(next_and_not(mask, &permitted, false, mask, &[], 36).position, 38);
/// assert_eq!(next_and_not(mask, &permitted, false, mask, &[], 41).refusal, 6);
/// ```
#[inline]
pub fn next_and_not(first: Mask, first_bytes: &[u8], second_present: bool, second: Mask, second_bytes: &[u8], from: usize) -> NextAnswer {
    unsafe {
        exports::pw_next_and_not(
            first,
            first_bytes.as_ptr(),
            first_bytes.len(),
            second_present,
            second,
            second_bytes.as_ptr(),
            second_bytes.len(),
            from,
        )
    }
}
