//! The next truck that dispatch offers.
//!
//! Written by tests/declarations.py from crates/capi.

use super::exports;
use super::records::*;

/// Returns the first truck at or after `cursor` that is permitted and not revoked, else the first such truck from 0, and in
/// `cursor` the number after that truck, for the next call. If there is no such truck, `found` is false and `cursor` is
/// unchanged. `windows` counts windows of 32 flags as [`next_and_not`](super::next_and_not) does, at most ceil(length / 32) + 1.
/// If `permitted` is false there is no permission mask: no truck is found, and `windows` is 0. If `revoked` is false there is no
/// revocation mask, and no truck is revoked. The record and bytes of an absent mask are not read. Refusal 5 occurs only with both
/// masks; 6 only with a permission mask, if `cursor` is above its length. Refuses with 1, 2, 3, 5, 6; `cursor` is unchanged, and
/// every other field is 0.
///
/// ```
/// use poruwhina::calls::{offer, try_new};
///
/// let mask = try_new(&[0], 0, 6).mask;
/// let first = offer(true, mask, &[0x2D], true, mask, &[0x04], 1); // 0, 2, 3, 5 permitted, 2 revoked
/// assert_eq!((first.found, first.truck, first.cursor, first.windows), (true, 3, 4, 1));
/// assert_eq!(offer(true, mask, &[0x2D], true, mask, &[0x04], 6).truck, 0); // round to truck 0
/// assert!(!offer(false, mask, &[], true, mask, &[0x04], 9).found); // no permission mask
/// assert_eq!(offer(true, mask, &[0x2D], false, mask, &[], 7).refusal, 6);
/// ```
#[inline]
pub fn offer(
    permitted: bool, permission: Mask, permission_bytes: &[u8], revoked: bool, revocation: Mask, revocation_bytes: &[u8], cursor: usize,
) -> OfferAnswer {
    unsafe {
        exports::pw_offer(
            permitted,
            permission,
            permission_bytes.as_ptr(),
            permission_bytes.len(),
            revoked,
            revocation,
            revocation_bytes.as_ptr(),
            revocation_bytes.len(),
            cursor,
        )
    }
}
