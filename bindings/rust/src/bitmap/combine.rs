//! Masks combined flag by flag. Each result has bytes of its own, starting at bit 0.

use super::Bitmap;
use crate::calls;
use crate::iterator::record_or_absent;
use crate::refusal::{Refusal, check};

/// A call that combines two masks.
type Combine = fn(calls::Mask, &[u8], calls::Mask, &[u8], &mut [u8]) -> calls::MaskAnswer;

/// The combinations. A known count of a mask changes neither their answer nor their time: masks are passed without their counts.
impl Bitmap {
    /// Returns the flags set in both masks. Refused with 5 if their lengths differ.
    ///
    /// ```
    /// use poruwhina::{Bitmap, Refusal};
    ///
    /// let a = Bitmap::from([true, true, false]);
    /// assert_eq!(a.and(&Bitmap::from([true, false, false]))?, Bitmap::from([true, false, false]));
    /// assert_eq!(a.and(&Bitmap::from([true])), Err(Refusal::UnequalLengths));
    /// # Ok::<(), Refusal>(())
    /// ```
    pub fn and(&self, rhs: &Bitmap) -> Result<Bitmap, Refusal> {
        self.combined(calls::and, rhs)
    }

    /// Returns the flags set in this mask and not in `rhs`: the trucks permitted and not revoked. Refused with 5 if the lengths differ.
    ///
    /// ```
    /// use poruwhina::Bitmap;
    ///
    /// let permitted = Bitmap::from([true, true, false]);
    /// let revoked = Bitmap::from([true, false, false]);
    /// assert_eq!(permitted.and_not(&revoked)?, Bitmap::from([false, true, false]));
    /// # Ok::<(), poruwhina::Refusal>(())
    /// ```
    pub fn and_not(&self, rhs: &Bitmap) -> Result<Bitmap, Refusal> {
        self.combined(calls::and_not, rhs)
    }

    /// Returns whether flag `index` is set in this mask and not in `rhs`: that flag of [`Bitmap::and_not`], read without making the
    /// mask. Refused with 5 if the masks differ in length, with 6 if `index` is not below the length.
    ///
    /// ```
    /// use poruwhina::{Bitmap, Refusal};
    ///
    /// let permitted = Bitmap::from([true, true, false]);
    /// let revoked = Bitmap::from([true, false, false]);
    /// assert_eq!(permitted.and_not_at(&revoked, 1), Ok(true));
    /// assert_eq!(permitted.and_not_at(&revoked, 3), Err(Refusal::OutsideMask));
    /// ```
    pub fn and_not_at(&self, rhs: &Bitmap, index: usize) -> Result<bool, Refusal> {
        let answer = calls::and_not_at(true, self.record(), self.bytes(), true, rhs.record(), rhs.bytes(), index);
        check(answer.refusal)?;
        Ok(answer.value)
    }

    /// Returns the first position at or after `from` that is set in this mask and not in `rhs`, else the first such position from 0, or
    /// none; and the number of windows of 32 flags read for it. No `rhs` means all zeros. Refused with 5 if the masks differ in length,
    /// with 6 if `from` is above the length.
    ///
    /// ```
    /// use poruwhina::{Bitmap, Refusal};
    ///
    /// let permitted = Bitmap::from([true, true, false, true]);
    /// let revoked = Bitmap::from([false, false, false, true]);
    /// assert_eq!(permitted.next_and_not(Some(&revoked), 1), Ok((Some(1), 1)));
    /// assert_eq!(permitted.next_and_not(Some(&revoked), 2), Ok((Some(0), 2)));
    /// assert_eq!(permitted.next_and_not(None, 2), Ok((Some(3), 1)));
    /// assert_eq!(permitted.next_and_not(Some(&permitted), 2), Ok((None, 2)));
    /// assert_eq!(permitted.next_and_not(None, 5), Err(Refusal::OutsideMask));
    /// ```
    pub fn next_and_not(&self, rhs: Option<&Bitmap>, from: usize) -> Result<(Option<usize>, usize), Refusal> {
        let (other, bytes) = record_or_absent(rhs);
        let answer = calls::next_and_not(self.record(), self.bytes(), rhs.is_some(), other, bytes, from);
        check(answer.refusal)?;
        Ok((answer.found.then_some(answer.position), answer.windows))
    }

    /// Returns the flags set in at least one of the masks. Refused with 5 if their lengths differ.
    ///
    /// ```
    /// use poruwhina::Bitmap;
    ///
    /// let either = Bitmap::from([true, false, false]).or(&Bitmap::from([false, false, true]))?;
    /// assert_eq!(either, Bitmap::from([true, false, true]));
    /// # Ok::<(), poruwhina::Refusal>(())
    /// ```
    pub fn or(&self, rhs: &Bitmap) -> Result<Bitmap, Refusal> {
        self.combined(calls::or, rhs)
    }

    /// Returns the flags set in this mask or not set in `rhs`. Refused with 5 if the lengths differ.
    ///
    /// ```
    /// use poruwhina::Bitmap;
    ///
    /// let mask = Bitmap::from([false, false, true]).or_not(&Bitmap::from([true, false, false]))?;
    /// assert_eq!(mask, Bitmap::from([false, true, true]));
    /// # Ok::<(), poruwhina::Refusal>(())
    /// ```
    pub fn or_not(&self, rhs: &Bitmap) -> Result<Bitmap, Refusal> {
        self.combined(calls::or_not, rhs)
    }

    /// Returns the flags set in exactly one of the masks. Refused with 5 if their lengths differ.
    ///
    /// ```
    /// use poruwhina::Bitmap;
    ///
    /// let changed = Bitmap::from([true, false, true]).xor(&Bitmap::from([true, true, false]))?;
    /// assert_eq!(changed, Bitmap::from([false, true, true]));
    /// # Ok::<(), poruwhina::Refusal>(())
    /// ```
    pub fn xor(&self, rhs: &Bitmap) -> Result<Bitmap, Refusal> {
        self.combined(calls::xor, rhs)
    }

    /// Returns the mask with each flag inverted. No check can fail, so there is no refusal.
    ///
    /// ```
    /// use poruwhina::Bitmap;
    ///
    /// assert_eq!(Bitmap::from([true, false]).not(), Bitmap::from([false, true]));
    /// ```
    #[must_use]
    pub fn not(&self) -> Bitmap {
        Bitmap::written(self.length, |out| calls::not(self.record(), self.bytes(), out)).expect("a mask has its own length")
    }

    /// Returns a mask: each flag is that of `truthy` if this mask's flag is set, else that of `falsy`. Refused with 5 if the lengths
    /// differ.
    ///
    /// ```
    /// use poruwhina::Bitmap;
    ///
    /// let selector = Bitmap::from([true, false, true, false]);
    /// let truthy = Bitmap::from([true, true, false, false]);
    /// let falsy = Bitmap::from([false, true, true, true]);
    /// assert_eq!(selector.select(&truthy, &falsy)?, Bitmap::from([true, true, false, true]));
    /// # Ok::<(), poruwhina::Refusal>(())
    /// ```
    pub fn select(&self, truthy: &Bitmap, falsy: &Bitmap) -> Result<Bitmap, Refusal> {
        Bitmap::written(self.length, |out| {
            calls::select(self.record(), self.bytes(), truthy.record(), truthy.bytes(), falsy.record(), falsy.bytes(), out)
        })
    }

    /// Returns a mask: each flag is that of `truthy` if this mask's flag is set, else the constant `falsy`. Refused with 5 if the lengths
    /// differ.
    ///
    /// ```
    /// use poruwhina::Bitmap;
    ///
    /// let selector = Bitmap::from([true, false, true, false]);
    /// let truthy = Bitmap::from([true, true, false, false]);
    /// assert_eq!(selector.select_constant(&truthy, true)?, Bitmap::from([true, true, false, true]));
    /// # Ok::<(), poruwhina::Refusal>(())
    /// ```
    pub fn select_constant(&self, truthy: &Bitmap, falsy: bool) -> Result<Bitmap, Refusal> {
        Bitmap::written(self.length, |out| calls::select_constant(self.record(), self.bytes(), truthy.record(), truthy.bytes(), falsy, out))
    }

    /// Counts the flags set in both masks. Refused with 5 if their lengths differ.
    ///
    /// ```
    /// use poruwhina::Bitmap;
    ///
    /// assert_eq!(Bitmap::from([true, true, false]).num_intersections_with(&Bitmap::from([false, true, true])), Ok(1));
    /// ```
    pub fn num_intersections_with(&self, other: &Bitmap) -> Result<usize, Refusal> {
        let answer = calls::num_intersections_with(self.record(), self.bytes(), other.record(), other.bytes());
        check(answer.refusal)?;
        Ok(answer.value)
    }

    fn combined(&self, call: Combine, rhs: &Bitmap) -> Result<Bitmap, Refusal> {
        Bitmap::written(self.length, |out| call(self.record(), self.bytes(), rhs.record(), rhs.bytes(), out))
    }
}
