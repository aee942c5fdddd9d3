//! The iterator over positions of ones, from both ends.

use std::iter::FusedIterator;

use super::{Cursor, record_or_absent};
use crate::bitmap::Bitmap;
use crate::calls;
use crate::refusal::{Refusal, check_passed};

impl Cursor<'_> {
    /// Writes the next positions to the start of `out` and returns how many. At the end no call is made.
    fn positions(&mut self, out: &mut [u32]) -> usize {
        if out.is_empty() || self.rest() == 0 {
            return 0;
        }
        self.took(calls::true_idx_next_chunk(self.record, self.bytes, out)).count
    }

    /// Returns the last position at or after the place, and ends the span before it. At the end no call is made.
    fn last_position(&mut self) -> Option<usize> {
        let calls::Cursor { start, length, place, masked } = self.record;
        let last = match (self.rest(), masked) {
            (0, _) => None,
            (_, 0) => Some(length - 1),
            _ => {
                let answer = calls::nth_set_bit_idx_rev(self.bytes, start, length, 0, length);
                check_passed(answer.refusal);
                answer.found.then_some(answer.value).filter(|&last| last >= place)
            }
        };
        self.record.length = last.unwrap_or(place);
        last
    }
}

/// The number of positions that a call is to return.
const CHUNK: usize = 64;

/// An iterator over the positions of the ones of a mask, in rising order, made by [`Bitmap::true_idx_iter`].
///
/// A call of the library returns up to 64 positions, which are kept and returned one by one; the first costs as much as all of
/// them. For a single position use [`Bitmap::nth_set_bit_idx`], for many at once
/// [`next_chunk`](TrueIdxIter::next_chunk). From the back each position is a call.
///
/// ```
/// let mask = poruwhina::Bitmap::from([true, false, true, true, false, true]);
/// assert!(mask.true_idx_iter().eq([0, 2, 3, 5]));
/// assert!(mask.true_idx_iter().rev().take(2).eq([5, 3]));
/// ```
#[derive(Clone, Debug)]
#[must_use = "an iterator does nothing until it is asked"]
pub struct TrueIdxIter<'a> {
    /// The cursor, past the positions kept.
    cursor: Cursor<'a>,
    /// The positions that the last call returned, up to `end`; those before `next` have been returned.
    kept: [u32; CHUNK],
    next: usize,
    end: usize,
}

impl<'a> TrueIdxIter<'a> {
    /// Returns an iterator over the positions of the ones of a mask of `length` flags, or over every position below `length` if there is
    /// no mask: as in Arrow, no mask means all ones here, while [`Permission::NoMask`](crate::Permission::NoMask) means no truck. Refused
    /// with 5 if the mask has another length, with 1 if `length` is above [`Bitmap::LIMIT`].
    ///
    /// ```
    /// use poruwhina::{Bitmap, Refusal, TrueIdxIter};
    ///
    /// let mask = Bitmap::from([false, true, true]);
    /// assert!(TrueIdxIter::new(3, Some(&mask))?.eq([1, 2]));
    /// assert!(TrueIdxIter::new(3, None)?.eq([0, 1, 2]));
    /// assert_eq!(TrueIdxIter::new(4, Some(&mask)).err(), Some(Refusal::UnequalLengths));
    /// # Ok::<(), Refusal>(())
    /// ```
    pub fn new(length: usize, mask: Option<&'a Bitmap>) -> Result<TrueIdxIter<'a>, Refusal> {
        let (record, bytes) = record_or_absent(mask);
        let cursor = Cursor::new(bytes, calls::true_idx_new(length, mask.is_some(), record, bytes))?;
        Ok(TrueIdxIter { cursor, kept: [0; CHUNK], next: 0, end: 0 })
    }

    /// Writes the next positions to the start of `out`, as many as there are and it has room for, and returns how many. The rest of
    /// `out` is unchanged. If fewer than its length are written, there are no more.
    ///
    /// ```
    /// let mask = poruwhina::Bitmap::from([true, false, true, true, false, true]);
    /// let mut positions = mask.true_idx_iter();
    /// let mut out = [9; 3];
    /// assert_eq!((positions.next(), positions.next_chunk(&mut out[..2]), out), (Some(0), 2, [2, 3, 9]));
    /// assert_eq!((positions.next_chunk(&mut out), out), (1, [5, 3, 9]));
    /// ```
    pub fn next_chunk(&mut self, out: &mut [u32]) -> usize {
        let kept = &self.kept[self.next..self.end];
        let first = kept.len().min(out.len());
        out[..first].copy_from_slice(&kept[..first]);
        self.next += first;
        first + self.cursor.positions(&mut out[first..])
    }

    /// Fills the empty buffer, and returns false if there are no more positions.
    fn refill(&mut self) -> bool {
        self.next = 0;
        self.end = self.cursor.positions(&mut self.kept);
        self.end > 0
    }
}

impl Iterator for TrueIdxIter<'_> {
    type Item = usize;

    #[inline]
    fn next(&mut self) -> Option<usize> {
        if self.next == self.end && !self.refill() {
            return None;
        }
        // `next` is below `end`, so the remainder changes nothing: it is quicker than the check of an index
        let position = self.kept[self.next % CHUNK];
        self.next += 1;
        Some(position as usize)
    }

    fn size_hint(&self) -> (usize, Option<usize>) {
        let kept = self.end - self.next;
        (kept, Some(kept + self.cursor.rest()))
    }

    fn last(mut self) -> Option<usize> {
        self.next_back()
    }

    #[inline]
    fn fold<B, F: FnMut(B, usize) -> B>(mut self, init: B, mut f: F) -> B {
        let mut folded = init;
        loop {
            for &position in &self.kept[self.next..self.end] {
                folded = f(folded, position as usize);
            }
            if !self.refill() {
                return folded;
            }
        }
    }
}

impl DoubleEndedIterator for TrueIdxIter<'_> {
    fn next_back(&mut self) -> Option<usize> {
        if let Some(position) = self.cursor.last_position() {
            return Some(position);
        }
        if self.next == self.end {
            return None;
        }
        self.end -= 1;
        Some(self.kept[self.end] as usize)
    }
}

impl FusedIterator for TrueIdxIter<'_> {}

impl Bitmap {
    /// Returns an iterator over the positions of the ones, in rising order.
    ///
    /// ```
    /// let mask = poruwhina::Bitmap::from([false, true, true]);
    /// assert_eq!(mask.true_idx_iter().collect::<Vec<_>>(), [1, 2]);
    /// ```
    pub fn true_idx_iter(&self) -> TrueIdxIter<'_> {
        TrueIdxIter::new(self.len(), Some(self)).expect("a mask has its own length")
    }
}
