//! Pieces of a mask, over the same bytes.

use super::Bitmap;
use crate::calls;
use crate::refusal::{Refusal, check};

impl Bitmap {
    /// Returns the mask of the `length` flags that start at `offset`, over the same bytes. Refused with 1 or 6 if they are not all in the
    /// mask.
    ///
    /// A known zero count of 0, or equal to the length, stays known. Another known count is recounted if few flags are cut off, and else
    /// becomes unknown. A mask whose count is known is counted again by the library before it is sliced.
    ///
    /// ```
    /// use poruwhina::{Bitmap, Refusal};
    ///
    /// let mask = Bitmap::from([true, false, true, true, false, true]);
    /// assert_eq!(mask.sliced(2, 4)?, Bitmap::from([true, true, false, true]));
    /// assert_eq!(mask.sliced(2, 5), Err(Refusal::OutsideMask));
    /// # Ok::<(), Refusal>(())
    /// ```
    pub fn sliced(&self, offset: usize, length: usize) -> Result<Bitmap, Refusal> {
        // The library's start is at most the limit: a slice that would start above it, by the bit in the first byte, is made in two steps.
        if (Bitmap::LIMIT - 7..=self.length).contains(&offset) && self.start + offset > Bitmap::LIMIT {
            return self.sliced(8, self.length - 8)?.sliced(offset - 8, length);
        }
        let answer = calls::slice(self.counted_record(), self.bytes(), offset, length);
        check(answer.refusal)?;
        Ok(self.over_its_bytes(answer.mask))
    }

    /// Keeps only the `length` flags that start at `offset`. Refused with 1 or 6 if they are not all in the mask, which is then unchanged.
    ///
    /// ```
    /// let mut mask = poruwhina::Bitmap::from([true, false, true]);
    /// assert!(mask.slice(2, 2).is_err());
    /// assert_eq!(mask.len(), 3);
    /// mask.slice(2, 1)?;
    /// assert_eq!(mask.get(0), Some(true));
    /// # Ok::<(), poruwhina::Refusal>(())
    /// ```
    pub fn slice(&mut self, offset: usize, length: usize) -> Result<(), Refusal> {
        *self = self.sliced(offset, length)?;
        Ok(())
    }

    /// Returns the mask of the first `at` flags and the mask of the flags starting at `at`. Refused with 6 if `at` is above the length,
    /// or with 1 if it is above [`LIMIT`](Bitmap::LIMIT).
    ///
    /// ```
    /// use poruwhina::Bitmap;
    ///
    /// let (first, second) = Bitmap::from([true, false, true]).split_at(1)?;
    /// assert_eq!((first, second), (Bitmap::from([true]), Bitmap::from([false, true])));
    /// # Ok::<(), poruwhina::Refusal>(())
    /// ```
    pub fn split_at(&self, at: usize) -> Result<(Bitmap, Bitmap), Refusal> {
        let first = self.sliced(0, at)?;
        let second = self.sliced(at, self.length - at)?;
        Ok((first, second))
    }
}
