//! What holds of the flags of one mask, or of two.

use super::Bitmap;
use crate::refusal::Refusal;

impl Bitmap {
    /// Returns whether at least one flag is set. It reads up to the first set flag.
    ///
    /// ```
    /// use poruwhina::Bitmap;
    ///
    /// assert!(Bitmap::from([false, true]).any());
    /// assert!(!Bitmap::from([false, false]).any() && !Bitmap::new().any());
    /// ```
    #[must_use]
    pub fn any(&self) -> bool {
        self.leading_zeros() < self.length
    }

    /// Returns whether every flag is set, as without flags. It reads up to the first zero.
    ///
    /// ```
    /// use poruwhina::Bitmap;
    ///
    /// assert!(Bitmap::from([true, true]).all() && Bitmap::new().all());
    /// assert!(!Bitmap::from([true, false]).all());
    /// ```
    #[must_use]
    pub fn all(&self) -> bool {
        self.leading_ones() == self.length
    }

    /// Returns whether no flag is set, as without flags.
    ///
    /// ```
    /// use poruwhina::Bitmap;
    ///
    /// assert!(Bitmap::from([false, false]).none() && Bitmap::new().none());
    /// ```
    #[must_use]
    pub fn none(&self) -> bool {
        !self.any()
    }

    /// Returns whether a flag is set in both masks. Refused with 5 if their lengths differ.
    ///
    /// ```
    /// use poruwhina::{Bitmap, Refusal};
    ///
    /// let mask = Bitmap::from([true, true, false]);
    /// assert_eq!(mask.intersects_with(&Bitmap::from([false, true, true])), Ok(true));
    /// assert_eq!(mask.intersects_with(&Bitmap::from([false, false, true])), Ok(false));
    /// assert_eq!(mask.intersects_with(&Bitmap::from([true])), Err(Refusal::UnequalLengths));
    /// ```
    pub fn intersects_with(&self, other: &Bitmap) -> Result<bool, Refusal> {
        Ok(self.num_intersections_with(other)? > 0)
    }

    /// Returns whether no flag is set in both masks. Refused with 5 if their lengths differ.
    ///
    /// ```
    /// use poruwhina::Bitmap;
    ///
    /// assert_eq!(Bitmap::from([true, false]).is_disjoint(&Bitmap::from([false, true])), Ok(true));
    /// ```
    pub fn is_disjoint(&self, other: &Bitmap) -> Result<bool, Refusal> {
        Ok(!self.intersects_with(other)?)
    }

    /// Returns whether every flag of this mask is set in the other one too. Refused with 5 if their lengths differ. It reads up to the
    /// first flag that is not.
    ///
    /// ```
    /// use poruwhina::Bitmap;
    ///
    /// let fleet = Bitmap::from([true, true, false]);
    /// assert_eq!(Bitmap::from([true, false, false]).is_subset(&fleet), Ok(true));
    /// assert_eq!(Bitmap::from([true, false, true]).is_subset(&fleet), Ok(false));
    /// ```
    pub fn is_subset(&self, other: &Bitmap) -> Result<bool, Refusal> {
        let (missing, _) = self.next_and_not(Some(other), 0)?;
        Ok(missing.is_none())
    }
}
