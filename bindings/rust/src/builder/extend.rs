//! Flags appended from an iterator.

use super::BitmapBuilder;
use crate::refusal::Refusal;

impl BitmapBuilder {
    /// Appends the flags of an iterator, one by one. Refused with 1 if the builder would have more than
    /// [`Bitmap::LIMIT`](crate::Bitmap::LIMIT) flags: it then has the flags that it had before.
    ///
    /// ```
    /// use poruwhina::{Bitmap, BitmapBuilder, Refusal};
    ///
    /// let mut builder = BitmapBuilder::new();
    /// builder.try_extend([true, false])?;
    /// assert_eq!(builder.try_extend(std::iter::repeat(true)), Err(Refusal::AboveLimit));
    /// assert_eq!(builder.freeze(), Bitmap::from([true, false]));
    /// # Ok::<(), Refusal>(())
    /// ```
    pub fn try_extend(&mut self, flags: impl IntoIterator<Item = bool>) -> Result<(), Refusal> {
        let flags = flags.into_iter();
        self.reserve(flags.size_hint().0);
        let before = self.record();
        for flag in flags {
            if let Err(refusal) = self.push(flag) {
                // Appends leave the finished words before them as they are, so that the record still fits the buffer.
                self.set_record(before);
                return Err(refusal);
            }
        }
        Ok(())
    }
}

/// Appends the flags of an iterator.
///
/// # Panics
/// If the builder would have more than [`Bitmap::LIMIT`](crate::Bitmap::LIMIT) flags. [`try_extend`](BitmapBuilder::try_extend) refuses
/// instead.
///
/// ```
/// use poruwhina::{Bitmap, BitmapBuilder};
///
/// let mut builder = BitmapBuilder::new();
/// builder.extend((0..3).map(|truck| truck == 1));
/// assert_eq!(builder.freeze(), Bitmap::from([false, true, false]));
/// ```
impl Extend<bool> for BitmapBuilder {
    #[track_caller]
    fn extend<I: IntoIterator<Item = bool>>(&mut self, flags: I) {
        if let Err(refusal) = self.try_extend(flags) {
            panic!("{refusal}");
        }
    }
}

/// Appends the flags of an iterator over borrowed flags, as the one over flags does.
///
/// ```
/// use poruwhina::{Bitmap, BitmapBuilder};
///
/// let mut builder = BitmapBuilder::new();
/// builder.extend(&[true, false]);
/// assert_eq!(builder.freeze(), Bitmap::from([true, false]));
/// ```
impl<'a> Extend<&'a bool> for BitmapBuilder {
    #[track_caller]
    fn extend<I: IntoIterator<Item = &'a bool>>(&mut self, flags: I) {
        self.extend(flags.into_iter().copied());
    }
}
