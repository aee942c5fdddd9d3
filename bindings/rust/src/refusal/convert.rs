//! The numbers of refusals, and their order.

use std::cmp::Ordering;
use std::error::Error;
use std::fmt;

use super::{ALL, Refusal};

/// Returns the refusal's number.
///
/// ```
/// assert_eq!(u8::from(poruwhina::Refusal::SerialConflict), 14);
/// ```
impl From<Refusal> for u8 {
    fn from(refusal: Refusal) -> u8 {
        refusal.number()
    }
}

/// Returns the refusal with this number. The error is that no check has it, as 0, which means that all checks passed.
///
/// ```
/// use poruwhina::{Refusal, UnknownNumber};
///
/// assert_eq!(Refusal::try_from(14), Ok(Refusal::SerialConflict));
/// assert_eq!(Refusal::try_from(0), Err(UnknownNumber(0)));
/// ```
impl TryFrom<u8> for Refusal {
    type Error = UnknownNumber;

    fn try_from(number: u8) -> Result<Refusal, UnknownNumber> {
        Refusal::from_number(number).ok_or(UnknownNumber(number))
    }
}

/// The error that no check has a number.
///
/// ```
/// use poruwhina::{Refusal, UnknownNumber};
///
/// let error = Refusal::try_from(99).unwrap_err();
/// assert_eq!(error, UnknownNumber(99));
/// assert_eq!(error.to_string(), "no check has the number 99");
/// ```
#[derive(Clone, Copy, Debug, PartialEq, Eq, Hash)]
pub struct UnknownNumber(pub u8);

impl fmt::Display for UnknownNumber {
    fn fmt(&self, f: &mut fmt::Formatter<'_>) -> fmt::Result {
        write!(f, "no check has the number {}", self.0)
    }
}

impl Error for UnknownNumber {}

/// Refusals are in the order of their checks, not of their numbers: of several checks that fail, the least is the answer.
///
/// ```
/// use poruwhina::Refusal;
///
/// assert!(Refusal::AboveLimit < Refusal::OutsideBytes);
/// assert!(Refusal::SerialConflict < Refusal::UnequalLengths); // 14 is checked before 5
/// ```
impl Ord for Refusal {
    fn cmp(&self, other: &Refusal) -> Ordering {
        let place = |refusal| ALL.iter().position(|one| one == refusal);
        place(self).cmp(&place(other))
    }
}

impl PartialOrd for Refusal {
    fn partial_cmp(&self, other: &Refusal) -> Option<Ordering> {
        Some(self.cmp(other))
    }
}
