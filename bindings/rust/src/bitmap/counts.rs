//! Counts, edges and searches of a mask.

use super::Bitmap;
use crate::calls;
use crate::refusal::check_passed;

impl Bitmap {
    /// Returns the number of zeros, which is counted unless it is known, and then kept.
    ///
    /// ```
    /// assert_eq!(poruwhina::Bitmap::try_new([0x2D], 6)?.unset_bits(), 2);
    /// # Ok::<(), poruwhina::Refusal>(())
    /// ```
    pub fn unset_bits(&self) -> usize {
        *self.zeros.get_or_init(|| {
            let answer = calls::unset_bits(self.record(), self.bytes());
            check_passed(answer.refusal);
            answer.zeros
        })
    }

    /// Returns the number of ones: the length minus the number of zeros.
    ///
    /// ```
    /// assert_eq!(poruwhina::Bitmap::try_new([0x2D], 6)?.set_bits(), 4);
    /// # Ok::<(), poruwhina::Refusal>(())
    /// ```
    pub fn set_bits(&self) -> usize {
        self.length - self.unset_bits()
    }

    /// Returns the number of zeros if it is known, else none, without counting.
    ///
    /// ```
    /// let mask = poruwhina::Bitmap::try_new([0x2D], 6)?;
    /// assert_eq!(mask.lazy_unset_bits(), None);
    /// mask.unset_bits();
    /// assert_eq!(mask.lazy_unset_bits(), Some(2));
    /// # Ok::<(), poruwhina::Refusal>(())
    /// ```
    #[must_use]
    pub fn lazy_unset_bits(&self) -> Option<usize> {
        self.zeros.get().copied()
    }

    /// Returns the number of ones if it is known, else none, without counting.
    ///
    /// ```
    /// use poruwhina::Bitmap;
    ///
    /// assert_eq!((Bitmap::try_new([0x2D], 6)?.lazy_set_bits(), Bitmap::ones(6)?.lazy_set_bits()), (None, Some(6)));
    /// # Ok::<(), poruwhina::Refusal>(())
    /// ```
    #[must_use]
    pub fn lazy_set_bits(&self) -> Option<usize> {
        self.lazy_unset_bits().map(|zeros| self.length - zeros)
    }

    /// Counts the zeros before the first set flag; all flags, if none is set.
    ///
    /// ```
    /// assert_eq!(poruwhina::Bitmap::from([false, false, true]).leading_zeros(), 2);
    /// ```
    #[must_use]
    pub fn leading_zeros(&self) -> usize {
        self.count(calls::leading_zeros)
    }

    /// Counts the ones before the first zero; all flags, if every flag is set.
    ///
    /// ```
    /// assert_eq!(poruwhina::Bitmap::from([true, true, false]).leading_ones(), 2);
    /// ```
    #[must_use]
    pub fn leading_ones(&self) -> usize {
        self.count(calls::leading_ones)
    }

    /// Counts the zeros after the last set flag; all flags, if none is set.
    ///
    /// ```
    /// assert_eq!(poruwhina::Bitmap::from([true, false, false]).trailing_zeros(), 2);
    /// ```
    #[must_use]
    pub fn trailing_zeros(&self) -> usize {
        self.count(calls::trailing_zeros)
    }

    /// Counts the ones after the last zero; all flags, if every flag is set.
    ///
    /// ```
    /// assert_eq!(poruwhina::Bitmap::from([false, true, true]).trailing_ones(), 2);
    /// ```
    #[must_use]
    pub fn trailing_ones(&self) -> usize {
        self.count(calls::trailing_ones)
    }

    /// Counts the flags that differ from the next flag.
    ///
    /// ```
    /// assert_eq!(poruwhina::Bitmap::from([true, false, true, true, false, true]).num_edges(), 4);
    /// ```
    #[must_use]
    pub fn num_edges(&self) -> usize {
        let answer = calls::num_edges(self.record(), self.bytes());
        check_passed(answer.refusal);
        answer.value
    }

    /// Returns the position of the n-th set flag at or after `from`, counting from 0; none if at most `n` flags are set there. `from` may
    /// exceed the length.
    ///
    /// ```
    /// let mask = poruwhina::Bitmap::from([true, false, true, true, false, true]);
    /// assert_eq!((mask.nth_set_bit_idx(2, 0), mask.nth_set_bit_idx(4, 0)), (Some(3), None));
    /// ```
    #[must_use]
    pub fn nth_set_bit_idx(&self, n: usize, from: usize) -> Option<usize> {
        found(calls::nth_set_bit_idx(self.bytes(), self.start, self.length, n, from))
    }

    /// Returns the position of the n-th set flag before `end`, counting down from 0: number 0 is the set flag nearest to `end`. None if
    /// at most `n` flags are set there. `end` may exceed the length.
    ///
    /// ```
    /// let mask = poruwhina::Bitmap::from([true, false, true, true, false, true]);
    /// assert_eq!((mask.nth_set_bit_idx_rev(1, 5), mask.nth_set_bit_idx_rev(3, 900)), (Some(2), Some(0)));
    /// ```
    #[must_use]
    pub fn nth_set_bit_idx_rev(&self, n: usize, end: usize) -> Option<usize> {
        found(calls::nth_set_bit_idx_rev(self.bytes(), self.start, self.length, n, end))
    }

    fn count(&self, call: impl FnOnce(&[u8], usize, usize, usize) -> calls::NumberAnswer) -> usize {
        // The last argument is the address remainder; no count depends on it.
        let answer = call(self.bytes(), self.start, self.length, 0);
        check_passed(answer.refusal);
        answer.value
    }
}

fn found(answer: calls::PositionAnswer) -> Option<usize> {
    check_passed(answer.refusal);
    answer.found.then_some(answer.value)
}
