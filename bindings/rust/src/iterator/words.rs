//! The iterator over whole words of flags.

use std::iter::FusedIterator;

use super::Cursor;
use crate::bitmap::Bitmap;
use crate::calls;
use crate::refusal::check_passed;

/// An iterator over the whole words of a mask, 64 flags each, the first in the lowest bit, made by [`Bitmap::chunks`].
///
/// ```
/// let mask = poruwhina::Bitmap::try_from_span([0xFF; 9], 3, 69)?;
/// let mut chunks = mask.chunks();
/// assert_eq!((chunks.len(), chunks.next(), chunks.next()), (1, Some(u64::MAX), None));
/// assert_eq!((chunks.remainder(), chunks.remainder_len()), (0b11111, 5));
/// # Ok::<(), poruwhina::Refusal>(())
/// ```
#[derive(Clone, Debug)]
#[must_use = "an iterator does nothing until it is asked"]
pub struct BitChunks<'a> {
    cursor: Cursor<'a>,
}

impl BitChunks<'_> {
    /// Returns the flags after the last whole word as a word, the first in the lowest bit, zero above them. It does not depend on the
    /// words returned so far.
    ///
    /// ```
    /// assert_eq!(poruwhina::Bitmap::from([true, false, true]).chunks().remainder(), 0b101);
    /// ```
    #[must_use]
    pub fn remainder(&self) -> u64 {
        self.rest().value
    }

    /// Returns the number of flags after the last whole word: the length mod 64.
    ///
    /// ```
    /// assert_eq!(poruwhina::Bitmap::new_zeroed(66)?.chunks().remainder_len(), 2);
    /// # Ok::<(), poruwhina::Refusal>(())
    /// ```
    #[must_use]
    pub fn remainder_len(&self) -> usize {
        self.rest().count
    }

    fn rest(&self) -> calls::Step {
        let answer = calls::chunks_remainder(self.cursor.record, self.cursor.bytes);
        check_passed(answer.refusal);
        answer
    }
}

impl Iterator for BitChunks<'_> {
    type Item = u64;

    #[inline]
    fn next(&mut self) -> Option<u64> {
        self.cursor.step(calls::chunks_next).map(|step| step.value)
    }

    fn size_hint(&self) -> (usize, Option<usize>) {
        let words = self.cursor.record.length / 64 - self.cursor.record.place;
        (words, Some(words))
    }
}

impl ExactSizeIterator for BitChunks<'_> {}
impl FusedIterator for BitChunks<'_> {}

impl Bitmap {
    /// Returns an iterator over the flags as whole words of 64, which also has the remaining flags.
    ///
    /// ```
    /// let mask = poruwhina::Bitmap::new_zeroed(130)?;
    /// assert_eq!((mask.chunks().count(), mask.chunks().remainder_len()), (2, 2));
    /// # Ok::<(), poruwhina::Refusal>(())
    /// ```
    pub fn chunks(&self) -> BitChunks<'_> {
        let (bytes, start, length) = self.as_slice();
        BitChunks { cursor: Cursor::over(bytes, calls::chunks_new(bytes, start, length)) }
    }
}
