//! The iterator over runs of ones, from both ends.

use std::iter::FusedIterator;

use super::Cursor;
use crate::bitmap::Bitmap;
use crate::calls;
use crate::refusal::check_passed;

/// An iterator over the maximal runs of ones of a mask as (start, length), in rising order, made by [`Bitmap::slices`].
///
/// ```
/// let mask = poruwhina::Bitmap::from([true, false, true, true, false, true]);
/// assert!(mask.slices().eq([(0, 1), (2, 2), (5, 1)]));
/// assert_eq!(mask.slices().next_back(), Some((5, 1)));
/// ```
#[derive(Clone, Debug)]
#[must_use = "an iterator does nothing until it is asked"]
pub struct SlicesIterator<'a> {
    cursor: Cursor<'a>,
}

impl Iterator for SlicesIterator<'_> {
    type Item = (usize, usize);

    #[inline]
    fn next(&mut self) -> Option<(usize, usize)> {
        self.cursor.step(calls::slices_next).map(|step| (step.value as usize, step.count))
    }

    fn size_hint(&self) -> (usize, Option<usize>) {
        (0, Some(self.cursor.rest().div_ceil(2)))
    }

    fn last(mut self) -> Option<(usize, usize)> {
        self.next_back()
    }
}

/// From the back a run takes two calls: how many zeros the span ends with, and how many ones before them.
impl DoubleEndedIterator for SlicesIterator<'_> {
    fn next_back(&mut self) -> Option<(usize, usize)> {
        let calls::Cursor { start, length, place, .. } = self.cursor.record;
        let counted = |answer: calls::NumberAnswer| {
            check_passed(answer.refusal);
            answer.value
        };
        let zeros = counted(calls::trailing_zeros(self.cursor.bytes, start, length, 0));
        if zeros >= length - place {
            self.cursor.record.length = place;
            return None;
        }
        let end = length - zeros;
        // The place is past a run, so that a run after it does not reach back over it.
        let ones = counted(calls::trailing_ones(self.cursor.bytes, start, end, 0));
        self.cursor.record.length = end - ones;
        Some((end - ones, ones))
    }
}

impl FusedIterator for SlicesIterator<'_> {}

impl Bitmap {
    /// Returns an iterator over the maximal runs of ones as (start, length), in rising order.
    ///
    /// ```
    /// let mask = poruwhina::Bitmap::from([false, true, true]);
    /// assert_eq!(mask.slices().collect::<Vec<_>>(), [(1, 2)]);
    /// ```
    pub fn slices(&self) -> SlicesIterator<'_> {
        SlicesIterator { cursor: Cursor::over(self.bytes(), calls::slices_new(self.record(), self.bytes())) }
    }
}
