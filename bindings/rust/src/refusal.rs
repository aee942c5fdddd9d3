//! The numbers by which the library refuses, with their messages.

mod convert;
mod lengths;

use std::error::Error;
use std::fmt;

pub use convert::UnknownNumber;
pub use lengths::RefusedLengths;

/// Why a call was refused: the first of the library's checks that failed. All calls make their checks in one order, that of this list.
/// A refused call has changed nothing.
///
/// [`Bitmap`](crate::Bitmap), [`BitmapBuilder`](crate::BitmapBuilder) and the other types of this crate refuse only with 1, 2, 5 and 6,
/// since they keep their records true and provide the room that each call needs. There are three exceptions:
/// [`try_from_counted_span`](crate::Bitmap::try_from_counted_span) also refuses with 3, [`superseding`](crate::Bitmap::superseding) with
/// 14, and [`ActivityWindow`](crate::ActivityWindow) only with 16. The functions of [`calls`](crate::calls) can refuse with every number
/// except 7.
///
/// ```
/// use poruwhina::{Bitmap, Refusal};
///
/// let refused = Bitmap::try_new([0x2D], 9).unwrap_err();
/// assert_eq!(refused, Refusal::OutsideBytes);
/// assert_eq!(refused.number(), 2);
/// assert_eq!(refused.to_string(), "refused with 2: start + length is above 8 * the bytes lent");
/// ```
// The list, with its texts, is written by tests/declarations.py from include/refusals.txt.
#[non_exhaustive]
#[repr(u8)]
#[derive(Clone, Copy, Debug, PartialEq, Eq, Hash)]
pub enum Refusal {
    /// 16: the width of the window of minutes is not 1 to 256, or no run of minutes at its width leaves the window.
    ImpossibleWindow = 16,
    /// 1: a start or a length is above 4,194,304: of a span, mask, cursor, builder or inner piece, a stated length, or a resulting
    /// start or length.
    AboveLimit = 1,
    /// 2: start + length is above 8 * the bytes lent.
    OutsideBytes = 2,
    /// 13: an end of 0 or below, one that is not above the end before it, a last end below the length, no runs for a length above 0,
    /// or a number of values that is not the number of ends.
    BrokenRunEnds = 13,
    /// 3: a known zero count is not the number of zeros among the flags. Each call that takes a mask counts a known one again.
    FalseCount = 3,
    /// 14: two masks with equal serials have different flags or lengths.
    SerialConflict = 14,
    /// 4: the builder is not possible: its word has a bit set at or above length mod 64, its ones are above 64 * (length div 64), or
    /// its buffer has fewer than 8 * (length div 64) bytes.
    ImpossibleBuilder = 4,
    /// 5: the masks combined, or a mask and the length stated for it, differ in length.
    UnequalLengths = 5,
    /// 12: rows * columns, computed exactly, is not the length of the mask.
    NotAGrid = 12,
    /// 6: a slice's end, a split point or a cursor's place is above the length, an index or a truck is not below it, a row or a column
    /// is not below the number of rows or of columns, or a pushed word has more than 64 flags or a bit set after them.
    OutsideMask = 6,
    /// 7: when a slice recounts, the known count is below the zeros cut off, or the rest of it is above the new length. No call
    /// returns this number: a known count is exact, since check 3 comes first.
    CountNotOfSlice = 7,
    /// 8: the address remainder is above 7.
    AddressRemainder = 8,
    /// 9: the output, or the builder's buffer, has fewer than 8 * ceil(new length / 64) bytes, or the output of counts or of run ends
    /// has fewer places than there are counts or runs.
    OutputTooSmall = 9,
}

const ALL: [Refusal; 13] = [
    Refusal::ImpossibleWindow,
    Refusal::AboveLimit,
    Refusal::OutsideBytes,
    Refusal::BrokenRunEnds,
    Refusal::FalseCount,
    Refusal::SerialConflict,
    Refusal::ImpossibleBuilder,
    Refusal::UnequalLengths,
    Refusal::NotAGrid,
    Refusal::OutsideMask,
    Refusal::CountNotOfSlice,
    Refusal::AddressRemainder,
    Refusal::OutputTooSmall,
];

impl Refusal {
    /// Returns the refusal's number.
    ///
    /// ```
    /// assert_eq!(poruwhina::Refusal::OutputTooSmall.number(), 9);
    /// ```
    #[must_use]
    pub const fn number(self) -> u8 {
        self as u8
    }

    /// Returns the refusal with the number in the field `refusal` of an answer of [`calls`](crate::calls); none for 0, which means
    /// that all checks passed, and for a number that no check has.
    ///
    /// ```
    /// use poruwhina::{calls, Refusal};
    ///
    /// assert_eq!(Refusal::from_number(calls::try_new(&[], 0, 1).refusal), Some(Refusal::OutsideBytes));
    /// assert_eq!(Refusal::from_number(calls::try_new(&[], 0, 0).refusal), None);
    /// ```
    #[must_use]
    pub fn from_number(number: u8) -> Option<Refusal> {
        ALL.into_iter().find(|refusal| refusal.number() == number)
    }

    fn words(self) -> &'static str {
        match self {
            Refusal::ImpossibleWindow => "the width is not 1 to 256, or no run of minutes leaves the window",
            Refusal::AboveLimit => "a start or a length is above 4,194,304",
            Refusal::OutsideBytes => "start + length is above 8 * the bytes lent",
            Refusal::BrokenRunEnds => "the run ends do not rise from above 0 to the length or above it, or are not as many as their values",
            Refusal::FalseCount => "a known zero count is not the number of zeros",
            Refusal::SerialConflict => "the masks have equal serials and different flags",
            Refusal::ImpossibleBuilder => "the builder is not possible: its word, ones or buffer do not fit its length",
            Refusal::UnequalLengths => "the masks combined, or a mask and the length stated for it, are not equal in length",
            Refusal::NotAGrid => "rows * columns is not the length of the mask",
            Refusal::OutsideMask => "the inner piece does not lie in its mask",
            Refusal::CountNotOfSlice => "the known count is below the zeros cut off, or the rest above the new length",
            Refusal::AddressRemainder => "the address remainder is above 7",
            Refusal::OutputTooSmall => "the output does not hold 8 * ceil(new length / 64) bytes, or all counts or ends",
        }
    }
}

impl fmt::Display for Refusal {
    fn fmt(&self, f: &mut fmt::Formatter<'_>) -> fmt::Result {
        write!(f, "refused with {}: {}", self.number(), self.words())
    }
}

impl Error for Refusal {}

/// Returns the error for the field `refusal` of an answer, if it is not 0.
#[inline]
pub(crate) fn check(number: u8) -> Result<(), Refusal> {
    match number {
        0 => Ok(()),
        _ => Err(refusal(number)),
    }
}

#[cold]
fn refusal(number: u8) -> Refusal {
    Refusal::from_number(number).unwrap_or_else(|| panic!("no check has the number {number}"))
}

/// Panics unless the field `refusal` is 0: for calls that cannot be refused, since the records of this crate's types pass their checks.
#[inline]
pub(crate) fn check_passed(number: u8) {
    check(number).expect("a record of this crate passes its checks");
}
