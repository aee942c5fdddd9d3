//! Whether an operator may reassign a truck.

use crate::bitmap::Bitmap;
use crate::calls;
use crate::iterator::record_or_absent;
use crate::refusal::{Refusal, check};

/// An operator's permission mask, or the fact that the operator has none.
///
/// It is a type of its own because no mask means two opposite things: here *no truck*; in
/// [`BitmapBuilder::into_opt_validity`](crate::BitmapBuilder::into_opt_validity) and [`TrueIdxIter::new`](crate::TrueIdxIter::new)
/// *all ones*, as in Arrow. So an `Option` of a mask does not convert to this type: end the builder of a permission mask with
/// [`BitmapBuilder::freeze`](crate::BitmapBuilder::freeze).
///
/// ```compile_fail,E0308
/// use poruwhina::{BitmapBuilder, may_reassign};
///
/// let mut builder = BitmapBuilder::new();
/// builder.extend_constant(40, true)?;
/// let validity = builder.into_opt_validity(); // none: all 40 flags are set
/// may_reassign(validity.as_ref(), None, 7)?;
/// # Ok::<(), poruwhina::Refusal>(())
/// ```
///
/// `into` does not convert it either:
///
/// ```compile_fail,E0277
/// use poruwhina::{BitmapBuilder, Permission};
///
/// let validity = BitmapBuilder::new().into_opt_validity();
/// let permission: Permission = validity.as_ref().into();
/// ```
#[derive(Clone, Copy, Debug, PartialEq, Eq, Hash)]
pub enum Permission<'a> {
    /// The operator may reassign the trucks whose flags are set.
    Mask(&'a Bitmap),
    /// The operator has no mask, and may reassign no truck.
    NoMask,
}

impl<'a> Permission<'a> {
    /// Returns the mask, if there is one, for the exports, which take a record and whether it is present.
    pub(crate) fn mask(self) -> Option<&'a Bitmap> {
        match self {
            Permission::Mask(mask) => Some(mask),
            Permission::NoMask => None,
        }
    }
}

/// Makes a permission of a mask that is there. An `Option` of a mask does not convert.
///
/// ```
/// use poruwhina::{Bitmap, Permission, may_reassign};
///
/// let mask = Bitmap::from([true, false]);
/// assert_eq!(may_reassign((&mask).into(), None, 0), Ok(true));
/// assert_eq!(Permission::from(&mask), Permission::Mask(&mask));
/// ```
impl<'a> From<&'a Bitmap> for Permission<'a> {
    fn from(mask: &'a Bitmap) -> Permission<'a> {
        Permission::Mask(mask)
    }
}

/// Returns whether the truck may be reassigned: it is permitted and not revoked. With [`Permission::NoMask`] the answer is no for every
/// truck; with no revocation mask no truck is revoked. Refused with 5 if the masks differ in length, with 6 if `truck` is not below the
/// length of a mask that is present.
///
/// It reads one flag of each mask. The mask of all such trucks is [`Bitmap::and_not`].
///
/// ```
/// use poruwhina::{may_reassign, Bitmap, Permission, Refusal};
///
/// let mask = Bitmap::from([true, true, false]);
/// let permission = Permission::Mask(&mask);
/// let revocation = Bitmap::from([true, false, false]);
/// assert_eq!(may_reassign(permission, Some(&revocation), 0), Ok(false));
/// assert_eq!(may_reassign(permission, Some(&revocation), 1), Ok(true));
/// assert_eq!(may_reassign(permission, Some(&revocation), 3), Err(Refusal::OutsideMask));
/// assert_eq!(may_reassign(Permission::NoMask, Some(&revocation), 1), Ok(false));
/// assert_eq!(may_reassign(Permission::NoMask, None, 3), Ok(false));
/// ```
pub fn may_reassign(permission: Permission<'_>, revocation: Option<&Bitmap>, truck: usize) -> Result<bool, Refusal> {
    let permission = permission.mask();
    let (permitted, permitted_bytes) = record_or_absent(permission);
    let (revoked, revoked_bytes) = record_or_absent(revocation);
    let answer = calls::may_reassign(permission.is_some(), permitted, permitted_bytes, revocation.is_some(), revoked, revoked_bytes, truck);
    check(answer.refusal)?;
    Ok(answer.value)
}
