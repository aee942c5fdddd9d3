//! One flag of a mask: read by its index, and changed in a copy.

use std::ops::Index;

use super::Bitmap;
use crate::builder::BitmapBuilder;
use crate::refusal::Refusal;

impl Bitmap {
    /// Returns a copy of the mask in which flag `i` is `flag`: one truck granted or revoked. Refused with 6 if `i` is not below the length.
    ///
    /// The copy has bytes of its own, so the call takes as long as copying the mask: to change many flags, combine the mask with
    /// another, or build one. The serial stays: set another before you save the copy ([`with_serial`](Bitmap::with_serial)).
    ///
    /// ```
    /// use poruwhina::{Bitmap, Refusal};
    ///
    /// let mask = Bitmap::from([true, false, true]).with_serial(6);
    /// let granted = mask.with_flag(1, true)?.with_serial(7);
    /// assert_eq!((granted, mask.get(1)), (Bitmap::ones(3)?, Some(false)));
    /// assert_eq!(mask.with_flag(3, true), Err(Refusal::OutsideMask));
    /// # Ok::<(), Refusal>(())
    /// ```
    pub fn with_flag(&self, i: usize, flag: bool) -> Result<Bitmap, Refusal> {
        self.and_not_at(self, i)?; // refused if there is no flag i
        let mut builder = BitmapBuilder::with_capacity(self.length).with_serial(self.serial);
        builder.subslice_extend_from_bitmap(self, 0, i)?;
        builder.push(flag)?;
        builder.subslice_extend_from_bitmap(self, i + 1, self.length - (i + 1))?;
        Ok(builder.freeze())
    }
}

/// Returns flag `i`, as [`Bitmap::get`] does.
///
/// # Panics
/// If `i` is not below the length.
///
/// ```
/// let mask = poruwhina::Bitmap::from([true, false]);
/// assert!(mask[0] && !mask[1]);
/// ```
impl Index<usize> for Bitmap {
    type Output = bool;

    #[track_caller]
    fn index(&self, i: usize) -> &bool {
        match self.get(i) {
            Some(true) => &true,
            Some(false) => &false,
            None => panic!("no flag {i} in a mask of {} flags", self.len()),
        }
    }
}
