//! A refusal with the two lengths that it is about.

use std::error::Error;
use std::fmt;

use super::Refusal;

/// A refusal of two masks, with their lengths: what the operators panic with, and what [`Bitmap::same_length`](crate::Bitmap::same_length)
/// returns. `?` makes a [`Refusal`] of it.
///
/// ```
/// use poruwhina::{Bitmap, Refusal};
///
/// let (permission, revocation) = (Bitmap::from([true; 40]), Bitmap::from([true; 38]));
/// let refused = permission.same_length(&revocation).unwrap_err();
/// assert_eq!((refused.refusal, refused.left, refused.right), (Refusal::UnequalLengths, 40, 38));
/// assert!(refused.to_string().starts_with("refused with 5: "));
/// assert!(refused.to_string().ends_with(": 40 and 38 flags"));
/// assert_eq!(Refusal::from(refused), Refusal::UnequalLengths);
/// ```
#[derive(Clone, Copy, Debug, PartialEq, Eq, Hash)]
pub struct RefusedLengths {
    /// The refusal.
    pub refusal: Refusal,
    /// The number of flags of the first mask.
    pub left: usize,
    /// The number of flags of the second mask.
    pub right: usize,
}

impl Refusal {
    /// Returns the refusal with the lengths of the two masks that were refused, for a message.
    ///
    /// ```
    /// use poruwhina::Bitmap;
    ///
    /// let (a, b) = (Bitmap::from([true; 40]), Bitmap::from([true; 38]));
    /// let refused = a.select_constant(&b, true).map_err(|refusal| refusal.with_lengths(a.len(), b.len())).unwrap_err();
    /// assert!(refused.to_string().ends_with(": 40 and 38 flags"));
    /// ```
    #[must_use]
    pub const fn with_lengths(self, left: usize, right: usize) -> RefusedLengths {
        RefusedLengths { refusal: self, left, right }
    }
}

impl From<RefusedLengths> for Refusal {
    fn from(refused: RefusedLengths) -> Refusal {
        refused.refusal
    }
}

impl fmt::Display for RefusedLengths {
    fn fmt(&self, f: &mut fmt::Formatter<'_>) -> fmt::Result {
        write!(f, "{}: {} and {} flags", self.refusal, self.left, self.right)
    }
}

impl Error for RefusedLengths {}
