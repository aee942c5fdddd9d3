//! The next truck that an operator may reassign, starting at a cursor and wrapping around to truck 0.

use crate::bitmap::Bitmap;
use crate::calls;
use crate::dispatch::Permission;
use crate::iterator::record_or_absent;
use crate::refusal::{Refusal, check};

/// The answer of [`offer`].
///
/// ```
/// use poruwhina::{Bitmap, Permission, Refusal, offer};
///
/// let mask = Bitmap::from([false, true]);
/// let answer = offer(Permission::Mask(&mask), None, 0)?;
/// assert_eq!((answer.truck, answer.cursor, answer.windows), (Some(1), 2, 1));
/// # Ok::<(), Refusal>(())
/// ```
#[derive(Clone, Copy, Debug, PartialEq, Eq)]
pub struct Offer {
    /// The truck, or none if no truck is permitted and not revoked.
    pub truck: Option<usize>,
    /// The cursor for the next call: one past the truck, or unchanged if there is no truck.
    pub cursor: usize,
    /// The number of windows of 32 flags read: at most ceil(length / 32) + 1, for the length of the permission mask.
    pub windows: usize,
}

/// Returns the first truck at or after `cursor` that is permitted and not revoked, else the first such truck from 0. With
/// [`Permission::NoMask`] there is no such truck for any cursor, and no window is read. Refused with 5 if the masks differ in length,
/// with 6 if `cursor` is above the length; a cursor equal to it is allowed.
///
/// The caller keeps the cursor. If the masks do not change and each call is passed the cursor that the one before returned, n calls
/// offer each of n such trucks once.
///
/// ```
/// use poruwhina::{Bitmap, Offer, Permission, Refusal, offer};
///
/// let mask = Bitmap::from([true, false, true, true]);
/// let revocation = Bitmap::from([false, false, true, false]);
/// let permission = Permission::Mask(&mask);
/// let first = offer(permission, Some(&revocation), 1)?;
/// assert_eq!(first, Offer { truck: Some(3), cursor: 4, windows: 1 });
/// assert_eq!(offer(permission, Some(&revocation), first.cursor)?.truck, Some(0));
/// assert_eq!(offer(permission, Some(&revocation), 5), Err(Refusal::OutsideMask));
/// assert_eq!(offer(Permission::NoMask, None, 5)?, Offer { truck: None, cursor: 5, windows: 0 });
/// # Ok::<(), Refusal>(())
/// ```
pub fn offer(permission: Permission<'_>, revocation: Option<&Bitmap>, cursor: usize) -> Result<Offer, Refusal> {
    let permission = permission.mask();
    let (permitted, permitted_bytes) = record_or_absent(permission);
    let (revoked, revoked_bytes) = record_or_absent(revocation);
    let answer = calls::offer(permission.is_some(), permitted, permitted_bytes, revocation.is_some(), revoked, revoked_bytes, cursor);
    check(answer.refusal)?;
    Ok(Offer { truck: answer.found.then_some(answer.truck), cursor: answer.cursor, windows: answer.windows })
}

/// Returns an iterator over every truck that is permitted and not revoked, once each, which begins at `cursor` and wraps around to truck
/// 0. Refused with 5 if the masks differ in length, with 6 if `cursor` is above the length.
///
/// ```
/// use poruwhina::{Bitmap, Permission, Refusal, offers};
///
/// let mask = Bitmap::from([true, false, true, true]);
/// let mut round = offers(Permission::Mask(&mask), None, 3)?;
/// assert_eq!(round.next(), Some(3));
/// assert_eq!(round.cursor(), 4); // kept for a later round
/// assert!(round.eq([0, 2]));
/// # Ok::<(), Refusal>(())
/// ```
pub fn offers<'a>(permission: Permission<'a>, revocation: Option<&'a Bitmap>, cursor: usize) -> Result<Offers<'a>, Refusal> {
    let next = offer(permission, revocation, cursor)?;
    Ok(Offers { permission, revocation, cursor, first: next.truck, next })
}

/// The iterator that [`offers`] returns: one call of the library for each truck.
///
/// ```
/// use poruwhina::{Bitmap, Permission, Refusal, offers};
///
/// let mask = Bitmap::from([true, false, true]);
/// assert_eq!(offers(Permission::Mask(&mask), None, 1)?.collect::<Vec<_>>(), [2, 0]);
/// # Ok::<(), Refusal>(())
/// ```
#[derive(Clone, Debug)]
#[must_use = "an iterator does nothing until it is asked"]
pub struct Offers<'a> {
    permission: Permission<'a>,
    revocation: Option<&'a Bitmap>,
    /// One past the truck returned last; before the first one, the caller's cursor.
    cursor: usize,
    /// The truck with which the round began, at which it ends.
    first: Option<usize>,
    /// The offer that is returned next; without a truck if the round has ended.
    next: Offer,
}

impl Offers<'_> {
    /// Returns the cursor for a later call: one past the truck returned last, or before the first one the cursor passed to [`offers`].
    ///
    /// ```
    /// use poruwhina::{Bitmap, Permission, Refusal, offers};
    ///
    /// let mask = Bitmap::from([true, false, true]);
    /// let mut round = offers(Permission::Mask(&mask), None, 1)?;
    /// assert_eq!(round.cursor(), 1);
    /// assert_eq!(round.next(), Some(2));
    /// assert_eq!(round.cursor(), 3);
    /// # Ok::<(), Refusal>(())
    /// ```
    #[must_use]
    pub fn cursor(&self) -> usize {
        self.cursor
    }
}

impl Iterator for Offers<'_> {
    type Item = usize;

    fn next(&mut self) -> Option<usize> {
        let truck = self.next.truck?;
        self.cursor = self.next.cursor;
        // The masks and the cursor were accepted, and the masks cannot change while they are borrowed.
        let after = offer(self.permission, self.revocation, self.cursor).expect("an accepted cursor is given back");
        self.next = if after.truck == self.first { Offer { truck: None, ..after } } else { after };
        Some(truck)
    }
}

impl std::iter::FusedIterator for Offers<'_> {}
