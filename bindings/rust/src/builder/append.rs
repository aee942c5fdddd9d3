//! What a builder appends: flags, runs, words, spans, masks and gathered flags.

use super::BitmapBuilder;
use crate::bitmap::{Bitmap, frozen_len};
use crate::calls;
use crate::refusal::{Refusal, check};

impl BitmapBuilder {
    /// Appends `flag`. Refused with 1 if the builder would have more than [`Bitmap::LIMIT`] flags.
    ///
    /// ```
    /// use poruwhina::{Bitmap, BitmapBuilder};
    ///
    /// let mut builder = BitmapBuilder::new();
    /// builder.push(true)?;
    /// builder.push(false)?;
    /// assert_eq!(builder.freeze(), Bitmap::from([true, false]));
    /// # Ok::<(), poruwhina::Refusal>(())
    /// ```
    #[inline]
    pub fn push(&mut self, flag: bool) -> Result<(), Refusal> {
        self.append(1, |record, buffer| calls::push(record, buffer, flag))
    }

    /// Appends `length` copies of `flag`. Refused with 1 if the builder would have more than [`Bitmap::LIMIT`] flags.
    ///
    /// ```
    /// use poruwhina::{Bitmap, BitmapBuilder, Refusal};
    ///
    /// let mut builder = BitmapBuilder::new();
    /// builder.extend_constant(Bitmap::LIMIT, true)?;
    /// assert_eq!(builder.extend_constant(1, true), Err(Refusal::AboveLimit));
    /// assert_eq!(builder.len(), Bitmap::LIMIT);
    /// # Ok::<(), Refusal>(())
    /// ```
    pub fn extend_constant(&mut self, length: usize, flag: bool) -> Result<(), Refusal> {
        self.append(length, |record, buffer| calls::extend_constant(record, buffer, length, flag))
    }

    /// Appends the lowest `length` bits of `word`, bit 0 first. Refused with 6 if `length` is above 64 or a higher bit is set, with 1 if
    /// the builder would have more than [`Bitmap::LIMIT`] flags.
    ///
    /// ```
    /// use poruwhina::{Bitmap, BitmapBuilder, Refusal};
    ///
    /// let mut builder = BitmapBuilder::new();
    /// builder.push_word_with_len(0b01, 2)?;
    /// assert_eq!(builder.push_word_with_len(0b100, 2), Err(Refusal::OutsideMask));
    /// assert_eq!(builder.freeze(), Bitmap::from([true, false]));
    /// # Ok::<(), Refusal>(())
    /// ```
    pub fn push_word_with_len(&mut self, word: u64, length: usize) -> Result<(), Refusal> {
        self.append(length, |record, buffer| calls::push_word_with_len_unchecked(record, buffer, word, length))
    }

    /// Appends the `length` flags of `bytes` that start at bit `start`. Refused with 2 if they are not in the bytes, with 1 if `start` or
    /// the builder's new length is above [`Bitmap::LIMIT`].
    ///
    /// ```
    /// use poruwhina::{Bitmap, BitmapBuilder, Refusal};
    ///
    /// let mut builder = BitmapBuilder::new();
    /// builder.extend_from_slice(&[0x2D], 2, 4)?;
    /// assert_eq!(builder.extend_from_slice(&[0x2D], 2, 7), Err(Refusal::OutsideBytes));
    /// assert_eq!(builder.freeze(), Bitmap::from([true, true, false, true]));
    /// # Ok::<(), Refusal>(())
    /// ```
    pub fn extend_from_slice(&mut self, bytes: &[u8], start: usize, length: usize) -> Result<(), Refusal> {
        self.append(length, |record, buffer| calls::extend_from_slice(record, buffer, bytes, start, length))
    }

    /// Appends `repeats` copies of each of the `length` flags of `bytes` that start at bit `start`, one flag after the other. Refused with
    /// 2 if the flags are not in the bytes, with 1 if `start`, `length` or the builder's new length is above [`Bitmap::LIMIT`].
    ///
    /// ```
    /// use poruwhina::{Bitmap, BitmapBuilder};
    ///
    /// let mut builder = BitmapBuilder::new();
    /// builder.extend_each_repeated_from_slice(&[0b01], 0, 2, 3)?;
    /// assert_eq!(builder.freeze(), Bitmap::from([true, true, true, false, false, false]));
    /// # Ok::<(), poruwhina::Refusal>(())
    /// ```
    pub fn extend_each_repeated_from_slice(&mut self, bytes: &[u8], start: usize, length: usize, repeats: usize) -> Result<(), Refusal> {
        self.append(length.saturating_mul(repeats), |record, buffer| {
            calls::extend_each_repeated_from_slice_unchecked(record, buffer, bytes, start, length, repeats)
        })
    }

    /// Appends the flags of `mask`. Refused with 1 if the builder would have more than [`Bitmap::LIMIT`] flags.
    ///
    /// ```
    /// use poruwhina::{Bitmap, BitmapBuilder};
    ///
    /// let mask = Bitmap::from([true, false]);
    /// let mut builder = BitmapBuilder::new();
    /// builder.extend_from_bitmap(&mask)?;
    /// builder.extend_from_bitmap(&mask)?;
    /// assert_eq!(builder.freeze(), Bitmap::from([true, false, true, false]));
    /// # Ok::<(), poruwhina::Refusal>(())
    /// ```
    pub fn extend_from_bitmap(&mut self, mask: &Bitmap) -> Result<(), Refusal> {
        self.subslice_extend_from_bitmap(mask, 0, mask.len())
    }

    /// Appends the `length` flags of `mask` that start at its flag `start`. Refused with 6 if they are not in the mask, with 1 if `start`,
    /// `length` or the builder's new length is above [`Bitmap::LIMIT`].
    ///
    /// ```
    /// use poruwhina::{Bitmap, BitmapBuilder, Refusal};
    ///
    /// let mask = Bitmap::from([true, false, true]);
    /// let mut builder = BitmapBuilder::new();
    /// builder.subslice_extend_from_bitmap(&mask, 1, 2)?;
    /// assert_eq!(builder.subslice_extend_from_bitmap(&mask, 1, 3), Err(Refusal::OutsideMask));
    /// assert_eq!(builder.freeze(), Bitmap::from([false, true]));
    /// # Ok::<(), Refusal>(())
    /// ```
    pub fn subslice_extend_from_bitmap(&mut self, mask: &Bitmap, start: usize, length: usize) -> Result<(), Refusal> {
        self.append(length, |record, buffer| calls::subslice_extend_from_bitmap(record, buffer, mask.record(), mask.bytes(), start, length))
    }

    /// Appends, for each index in `idxs`, that flag of the `length` flags of `bytes` that start at bit `start`. Refused with 2 if these
    /// are not in the bytes, with 6 if an index is not below `length`, with 1 if `start`, `length` or the builder's new length is above
    /// [`Bitmap::LIMIT`].
    ///
    /// ```
    /// use poruwhina::{Bitmap, BitmapBuilder, Refusal};
    ///
    /// let mut builder = BitmapBuilder::new();
    /// builder.gather_extend_from_slice(&[0x2D], 0, 6, &[5, 4, 0])?;
    /// assert_eq!(builder.gather_extend_from_slice(&[0x2D], 0, 6, &[5, 6, 0]), Err(Refusal::OutsideMask));
    /// assert_eq!(builder.freeze(), Bitmap::from([true, false, true]));
    /// # Ok::<(), Refusal>(())
    /// ```
    pub fn gather_extend_from_slice(&mut self, bytes: &[u8], start: usize, length: usize, idxs: &[u32]) -> Result<(), Refusal> {
        self.append(idxs.len(), |record, buffer| calls::gather_extend_from_slice(record, buffer, bytes, start, length, idxs))
    }

    /// Appends, for each index in `idxs`, that flag of the `length` flags of `bytes` that start at bit `start`, or 0 if the index is not
    /// below `length`. Refused with 2 if the flags are not in the bytes, with 1 if `start`, `length` or the builder's new length is above
    /// [`Bitmap::LIMIT`].
    ///
    /// ```
    /// use poruwhina::{Bitmap, BitmapBuilder};
    ///
    /// let mut builder = BitmapBuilder::new();
    /// builder.opt_gather_extend_from_slice(&[0x2D], 0, 6, &[5, 6, 0])?;
    /// assert_eq!(builder.freeze(), Bitmap::from([true, false, true]));
    /// # Ok::<(), poruwhina::Refusal>(())
    /// ```
    pub fn opt_gather_extend_from_slice(&mut self, bytes: &[u8], start: usize, length: usize, idxs: &[u32]) -> Result<(), Refusal> {
        self.append(idxs.len(), |record, buffer| calls::opt_gather_extend_from_slice(record, buffer, bytes, start, length, idxs))
    }

    /// Makes room for `more` flags, unless they would exceed the limit, and appends them by `call`.
    #[inline]
    fn append(&mut self, more: usize, call: impl FnOnce(calls::Builder, &mut [u8]) -> calls::BuilderAnswer) -> Result<(), Refusal> {
        let length = self.length.saturating_add(more);
        if length <= Bitmap::LIMIT && self.buffer.len() < frozen_len(length) {
            self.buffer.resize(frozen_len(length), 0);
        }
        let answer = call(self.record(), &mut self.buffer);
        check(answer.refusal)?;
        self.length = answer.builder.length;
        self.ones = answer.builder.ones;
        self.word = answer.builder.word;
        Ok(())
    }
}
