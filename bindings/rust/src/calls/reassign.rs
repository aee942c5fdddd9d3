//! Dispatch.
//!
//! Written by tests/declarations.py from crates/capi.

use super::exports;
use super::records::*;

/// Returns whether truck number `truck` may be reassigned: its flag is set in the permission mask and not in the revocation mask.
/// If `permitted` is false there is no permission mask, and the answer is no for every truck; if `revoked` is false there is no
/// revocation mask, and no truck is revoked. The record and bytes of an absent mask are not read. Refusal 5 occurs only with both
/// masks; without any mask nothing is refused. No permission mask is the opposite of no mask from
/// [`into_opt_validity`](super::into_opt_validity) or in [`true_idx_new`](super::true_idx_new), which means all ones: end the
/// builder of a permission mask with [`freeze`](super::freeze). Refuses with 1, 2, 3, 5, 6; every other field is then 0.
///
/// ```
/// use poruwhina::calls::{may_reassign, try_new};
///
/// let mask = try_new(&[0], 0, 6).mask;
/// assert!(may_reassign(true, mask, &[0x2D], true, mask, &[0x01], 2).value);
/// assert!(!may_reassign(true, mask, &[0x2D], true, mask, &[0x01], 0).value);
/// assert_eq!(may_reassign(true, mask, &[0x2D], true, mask, &[0x01], 6).refusal, 6);
/// ```
#[inline]
pub fn may_reassign(
    permitted: bool, permission: Mask, permission_bytes: &[u8], revoked: bool, revocation: Mask, revocation_bytes: &[u8], truck: usize,
) -> FlagAnswer {
    unsafe {
        exports::pw_may_reassign(
            permitted,
            permission,
            permission_bytes.as_ptr(),
            permission_bytes.len(),
            revoked,
            revocation,
            revocation_bytes.as_ptr(),
            revocation_bytes.len(),
            truck,
        )
    }
}
