//! A mask as run ends and a mask of the runs' values, as Arrow's run-end encoded arrays have them.

use crate::bitmap::Bitmap;
use crate::calls;
use crate::refusal::Refusal;

impl Bitmap {
    /// Returns the mask of `length` flags that run ends and their values have: flag p is the value of the first run whose end is above p.
    /// Its serial is that of `values`.
    ///
    /// Ends may be any numbers of 32 bits. Refused with 1 if `length` is above [`LIMIT`](Bitmap::LIMIT); with 13 if an end is 0 or below
    /// or not above the one before it, if the last one is below `length`, if there are none for a length above 0, or if there are not as
    /// many values as ends. Only the last end is held to the length: ends above it pass.
    ///
    /// ```
    /// use poruwhina::{Bitmap, Refusal};
    ///
    /// let values = Bitmap::from([true, false, true]);
    /// let mask = Bitmap::from_run_ends(&[2, 3, 7], &values, 5)?;
    /// assert_eq!(mask, Bitmap::from([true, true, false, true, true]));
    /// assert_eq!(Bitmap::from_run_ends(&[2, 3, 7], &values, 8), Err(Refusal::BrokenRunEnds));
    /// assert_eq!(Bitmap::from_run_ends(&[2, 2, 7], &values, 5), Err(Refusal::BrokenRunEnds));
    /// assert_eq!(Bitmap::from_run_ends(&[], &Bitmap::new(), 0)?, Bitmap::new());
    /// # Ok::<(), Refusal>(())
    /// ```
    pub fn from_run_ends(ends: &[i32], values: &Bitmap, length: usize) -> Result<Bitmap, Refusal> {
        Bitmap::written(length, |out| calls::from_run_ends(ends, values.record(), values.bytes(), length, out))
    }

    /// Returns the fewest runs that have the mask's flags: where each run ends, and the mask of the runs' flags, under the mask's serial.
    /// The last end is the length; a mask of no flags has no runs. [`from_run_ends`](Bitmap::from_run_ends) restores the mask.
    ///
    /// ```
    /// use poruwhina::Bitmap;
    ///
    /// let mask = Bitmap::from([true, true, false, true, true]);
    /// let (ends, values) = mask.run_ends();
    /// assert_eq!((ends.as_slice(), &values), (&[2, 3, 5][..], &Bitmap::from([true, false, true])));
    /// assert_eq!(Bitmap::from_run_ends(&ends, &values, mask.len())?, mask);
    /// # Ok::<(), poruwhina::Refusal>(())
    /// ```
    pub fn run_ends(&self) -> (Vec<i32>, Bitmap) {
        // A run ends at each flag that differs from the next one, and at the last flag.
        let mut ends = vec![0; if self.is_empty() { 0 } else { self.num_edges() + 1 }];
        let values = self.run_ends_into(&mut ends).expect("there is a place for each run");
        (ends, values)
    }

    /// Writes the ends of the fewest runs to the start of `ends` and returns the mask of the runs' flags, whose length is the number of
    /// runs; the rest of `ends` is unchanged. Refused with 9 if `ends` has fewer places than there are runs.
    ///
    /// ```
    /// use poruwhina::{Bitmap, Refusal};
    ///
    /// let mask = Bitmap::from([true, true, false, true, true]);
    /// let mut ends = [9; 4];
    /// assert_eq!(mask.run_ends_into(&mut ends)?, Bitmap::from([true, false, true]));
    /// assert_eq!(ends, [2, 3, 5, 9]);
    /// assert_eq!(mask.run_ends_into(&mut ends[..2]), Err(Refusal::OutputTooSmall));
    /// # Ok::<(), Refusal>(())
    /// ```
    pub fn run_ends_into(&self, ends: &mut [i32]) -> Result<Bitmap, Refusal> {
        // A mask has at most as many runs as flags, and no more are written than `ends` has places for.
        let most = self.len().min(ends.len());
        Bitmap::written(most, |out| calls::to_run_ends(self.record(), self.bytes(), ends, out))
    }
}
