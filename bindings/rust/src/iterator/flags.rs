//! The iterator over flags, from both ends.

use std::iter::FusedIterator;

use super::Cursor;
use crate::bitmap::Bitmap;
use crate::calls;
use crate::refusal::check_passed;

/// An iterator over the flags of a mask, made by [`Bitmap::iter`].
///
/// [`nth`](Iterator::nth), and so a step of `skip` or `step_by`, is one call of the library, however many flags it skips; so is
/// [`nth_back`](DoubleEndedIterator::nth_back).
///
/// ```
/// let mask = poruwhina::Bitmap::from([true, false, true, true]);
/// let mut flags = mask.iter();
/// assert_eq!(flags.len(), 4);
/// assert_eq!((flags.next(), flags.nth(1), flags.len()), (Some(true), Some(true), 1));
/// assert!(mask.iter().rev().eq([true, true, false, true]));
/// ```
#[derive(Clone, Debug)]
#[must_use = "an iterator does nothing until it is asked"]
pub struct BitmapIter<'a> {
    pub(super) cursor: Cursor<'a>,
}

impl BitmapIter<'_> {
    /// Skips the ones up to the next zero, or to the end, and returns how many there were; 0, if the next flag is a zero.
    ///
    /// ```
    /// let mask = poruwhina::Bitmap::from([true, true, false]);
    /// let mut flags = mask.iter();
    /// assert_eq!((flags.take_leading_ones(), flags.next()), (2, Some(false)));
    /// ```
    pub fn take_leading_ones(&mut self) -> usize {
        self.cursor.took(calls::take_leading_ones(self.cursor.record, self.cursor.bytes)).count
    }

    /// Skips the zeros up to the next one, or to the end, and returns how many there were; 0, if the next flag is a one.
    ///
    /// ```
    /// let mask = poruwhina::Bitmap::from([false, false, true]);
    /// let mut flags = mask.iter();
    /// assert_eq!((flags.take_leading_zeros(), flags.next()), (2, Some(true)));
    /// ```
    pub fn take_leading_zeros(&mut self) -> usize {
        self.cursor.took(calls::take_leading_zeros(self.cursor.record, self.cursor.bytes)).count
    }
}

impl Iterator for BitmapIter<'_> {
    type Item = bool;

    #[inline]
    fn next(&mut self) -> Option<bool> {
        self.cursor.step(calls::iter_next).map(|step| step.value != 0)
    }

    #[inline]
    fn nth(&mut self, n: usize) -> Option<bool> {
        let answer = self.cursor.took(calls::iter_nth(self.cursor.record, self.cursor.bytes, n));
        answer.found.then_some(answer.value != 0)
    }

    fn size_hint(&self) -> (usize, Option<usize>) {
        (self.cursor.rest(), Some(self.cursor.rest()))
    }

    fn count(self) -> usize {
        self.cursor.rest()
    }

    fn last(mut self) -> Option<bool> {
        self.next_back()
    }
}

impl DoubleEndedIterator for BitmapIter<'_> {
    #[inline]
    fn next_back(&mut self) -> Option<bool> {
        self.nth_back(0)
    }

    fn nth_back(&mut self, n: usize) -> Option<bool> {
        let (record, left) = (self.cursor.record, self.cursor.rest().saturating_sub(n));
        if left == 0 {
            self.cursor.record.length = record.place;
            return None;
        }
        let last = calls::Cursor { place: record.place + left - 1, ..record };
        let answer = calls::iter_next(last, self.cursor.bytes);
        check_passed(answer.refusal);
        self.cursor.record.length = last.place;
        Some(answer.value != 0)
    }
}

impl ExactSizeIterator for BitmapIter<'_> {}
impl FusedIterator for BitmapIter<'_> {}

impl Bitmap {
    /// Returns an iterator over the flags in their order.
    ///
    /// ```
    /// let mask = poruwhina::Bitmap::from([true, false]);
    /// assert_eq!(mask.iter().collect::<Vec<bool>>(), [true, false]);
    /// ```
    pub fn iter(&self) -> BitmapIter<'_> {
        let (bytes, start, length) = self.as_slice();
        BitmapIter { cursor: Cursor::over(bytes, calls::iter_new(bytes, start, length)) }
    }
}
