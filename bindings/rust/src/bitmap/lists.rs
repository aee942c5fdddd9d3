//! Masks made from the positions of their ones or from their runs of ones: a loop over `extend_constant`, and nothing else.

use std::error::Error;
use std::fmt;

use super::Bitmap;
use crate::builder::BitmapBuilder;
use crate::refusal::Refusal;

impl Bitmap {
    /// Returns the mask of `length` flags of which those at `positions` are set. The positions rise, and each is below `length`: otherwise
    /// the error names the first one that is not so. Refused with 1 if `length` is above [`LIMIT`](Bitmap::LIMIT).
    ///
    /// The mask has serial 0: set another before you save it.
    ///
    /// ```
    /// use poruwhina::{Bitmap, ListError};
    ///
    /// let mask = Bitmap::from_positions(4, [0, 2])?;
    /// assert_eq!(mask, Bitmap::from([true, false, true, false]));
    /// assert_eq!(Bitmap::from_positions(4, mask.true_idx_iter())?, mask);
    /// assert_eq!(Bitmap::from_positions(4, [2, 0]), Err(ListError::NotRising { index: 1 }));
    /// assert_eq!(Bitmap::from_positions(4, [0, 4]), Err(ListError::PastLength { index: 1 }));
    /// # Ok::<(), ListError>(())
    /// ```
    pub fn from_positions(length: usize, positions: impl IntoIterator<Item = usize>) -> Result<Bitmap, ListError> {
        Bitmap::from_runs(length, positions.into_iter().map(|position| (position, 1)))
    }

    /// Returns the mask of `length` flags with these runs of ones, each (start, length) as [`slices`](Bitmap::slices) returns them. Each
    /// run begins at or after the end of the one before it and ends at or before `length`: otherwise the error names the first one that
    /// does not. Runs may touch, and be empty. Refused with 1 if `length` is above [`LIMIT`](Bitmap::LIMIT).
    ///
    /// The mask has serial 0: set another before you save it.
    ///
    /// ```
    /// use poruwhina::{Bitmap, ListError};
    ///
    /// let mask = Bitmap::from_runs(6, [(0, 1), (2, 3)])?;
    /// assert_eq!(mask, Bitmap::from([true, false, true, true, true, false]));
    /// assert_eq!(Bitmap::from_runs(6, mask.slices())?, mask);
    /// assert_eq!(Bitmap::from_runs(6, [(0, 3), (2, 3)]), Err(ListError::NotRising { index: 1 }));
    /// assert_eq!(Bitmap::from_runs(6, [(5, 2)]), Err(ListError::PastLength { index: 0 }));
    /// # Ok::<(), ListError>(())
    /// ```
    pub fn from_runs(length: usize, runs: impl IntoIterator<Item = (usize, usize)>) -> Result<Bitmap, ListError> {
        let mut builder = BitmapBuilder::with_capacity(length);
        for (index, (start, ones)) in runs.into_iter().enumerate() {
            let gap = start.checked_sub(builder.len()).ok_or(ListError::NotRising { index })?;
            if length.checked_sub(start).is_none_or(|room| ones > room) {
                return Err(ListError::PastLength { index });
            }
            builder.extend_constant(gap, false)?;
            builder.extend_constant(ones, true)?;
        }
        builder.extend_constant(length - builder.len(), false)?;
        Ok(builder.freeze())
    }
}

/// Why a list of positions or runs makes no mask. What is wrong with the list is an error of this crate and has no number; only
/// [`Refused`](ListError::Refused) comes from the library.
///
/// ```
/// use poruwhina::{Bitmap, ListError, Refusal};
///
/// let error = Bitmap::from_runs(40, [(4, 8), (20, 3), (22, 1)]).unwrap_err();
/// assert_eq!(error, ListError::NotRising { index: 2 });
/// assert_eq!(error.to_string(), "entry 2 of the list, counted from 0, begins before the end of the one before it");
/// assert_eq!(Bitmap::from_runs(Bitmap::LIMIT + 1, []), Err(ListError::Refused(Refusal::AboveLimit)));
/// ```
#[non_exhaustive]
#[derive(Clone, Copy, Debug, PartialEq, Eq, Hash)]
pub enum ListError {
    /// The entry with this number, from 0, begins before the end of the one before it: the list is not sorted, or entries overlap.
    NotRising {
        /// The number of the entry, from 0.
        index: usize,
    },
    /// The entry with this number, from 0, does not end at or before the length.
    PastLength {
        /// The number of the entry, from 0.
        index: usize,
    },
    /// The library refused an append.
    Refused(Refusal),
}

impl From<Refusal> for ListError {
    fn from(refusal: Refusal) -> ListError {
        ListError::Refused(refusal)
    }
}

impl fmt::Display for ListError {
    fn fmt(&self, f: &mut fmt::Formatter<'_>) -> fmt::Result {
        let (index, what) = match self {
            ListError::NotRising { index } => (index, "begins before the end of the one before it"),
            ListError::PastLength { index } => (index, "ends past the length"),
            ListError::Refused(refusal) => return write!(f, "{refusal}"),
        };
        write!(f, "entry {index} of the list, counted from 0, {what}")
    }
}

impl Error for ListError {}
