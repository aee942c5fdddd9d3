//! The iterator over flags that owns its mask.

use std::iter::FusedIterator;

use super::{BitmapIter, Cursor};
use crate::bitmap::Bitmap;
use crate::calls;

/// An iterator over the flags of a mask that it owns, made by [`into_iter`](Bitmap::into_iter). It steps as [`BitmapIter`] does, and can
/// be returned by the function that made the mask, or sent to another thread.
///
/// ```
/// use poruwhina::{Bitmap, BitmapIntoIter};
///
/// fn flags_of_pit() -> BitmapIntoIter {
///     Bitmap::from([true, false, true]).into_iter()
/// }
///
/// assert_eq!(flags_of_pit().len(), 3);
/// assert!(flags_of_pit().rev().eq([true, false, true]));
/// ```
#[derive(Clone, Debug)]
#[must_use = "an iterator does nothing until it is asked"]
pub struct BitmapIntoIter {
    mask: Bitmap,
    record: calls::Cursor,
}

impl BitmapIntoIter {
    /// Makes a step of the iterator over the borrowed mask.
    #[inline]
    fn step<T>(&mut self, step: impl FnOnce(&mut BitmapIter<'_>) -> T) -> T {
        let mut flags = BitmapIter { cursor: Cursor { bytes: self.mask.bytes(), record: self.record } };
        let answer = step(&mut flags);
        self.record = flags.cursor.record;
        answer
    }
}

impl Iterator for BitmapIntoIter {
    type Item = bool;

    #[inline]
    fn next(&mut self) -> Option<bool> {
        self.step(|flags| flags.next())
    }

    #[inline]
    fn nth(&mut self, n: usize) -> Option<bool> {
        self.step(|flags| flags.nth(n))
    }

    fn size_hint(&self) -> (usize, Option<usize>) {
        let rest = self.record.length - self.record.place;
        (rest, Some(rest))
    }

    fn count(self) -> usize {
        self.len()
    }

    fn last(mut self) -> Option<bool> {
        self.next_back()
    }
}

impl DoubleEndedIterator for BitmapIntoIter {
    #[inline]
    fn next_back(&mut self) -> Option<bool> {
        self.step(|flags| flags.next_back())
    }

    fn nth_back(&mut self, n: usize) -> Option<bool> {
        self.step(|flags| flags.nth_back(n))
    }
}

impl ExactSizeIterator for BitmapIntoIter {}
impl FusedIterator for BitmapIntoIter {}

/// Iterates over the flags of a mask that is given up. `&mask` and [`Bitmap::iter`] borrow it instead.
///
/// ```
/// let ones = poruwhina::Bitmap::from([true, false, true]).into_iter().filter(|flag| *flag).count();
/// assert_eq!(ones, 2);
/// ```
impl IntoIterator for Bitmap {
    type Item = bool;
    type IntoIter = BitmapIntoIter;

    fn into_iter(self) -> BitmapIntoIter {
        let record = self.iter().cursor.record;
        BitmapIntoIter { mask: self, record }
    }
}

/// Iterates over the flags, as [`Bitmap::iter`] does.
///
/// ```
/// let mut ones = 0;
/// for flag in &poruwhina::Bitmap::from([true, false, true]) {
///     ones += usize::from(flag);
/// }
/// assert_eq!(ones, 2);
/// ```
impl<'a> IntoIterator for &'a Bitmap {
    type Item = bool;
    type IntoIter = BitmapIter<'a>;

    fn into_iter(self) -> BitmapIter<'a> {
        self.iter()
    }
}
