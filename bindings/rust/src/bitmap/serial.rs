//! The serial of a mask, and which of two masks of one operator supersedes the other.

use std::sync::Arc;

use super::Bitmap;
use crate::calls;
use crate::refusal::{Refusal, check};

impl Bitmap {
    /// Returns the serial of the revocation list that the mask was drawn up under. A new mask has serial 0, a frozen one its builder's, a
    /// slice that of its mask, and a combination the largest of its masks': set the serial under which a combination is saved.
    ///
    /// ```
    /// use poruwhina::Bitmap;
    ///
    /// let (older, newer) = (Bitmap::from([true]).with_serial(5), Bitmap::from([true]).with_serial(7));
    /// assert_eq!((older.sliced(0, 1)?.serial(), (&older | &newer).serial(), Bitmap::new().serial()), (5, 7, 0));
    /// # Ok::<(), poruwhina::Refusal>(())
    /// ```
    #[must_use]
    pub fn serial(&self) -> u32 {
        self.serial
    }

    /// Returns the mask with its serial changed to `serial`. A mask that is rebuilt from runs or copied has its builder's serial, which is
    /// 0 unless it was set: set the serial before you save such a mask.
    ///
    /// ```
    /// assert_eq!(poruwhina::Bitmap::new().with_serial(7).serial(), 7);
    /// ```
    #[must_use]
    pub fn with_serial(self, serial: u32) -> Bitmap {
        Bitmap { serial, ..self }
    }

    /// Returns the one of two masks of one operator that has the larger serial, over its own bytes, which are not copied. If the serials
    /// and the flags are equal, returns the first. Refused with 14 if the serials are equal and the flags are not: then neither is known to
    /// be the later one, and a person must decide. The caller ensures that both masks are one operator's, and that neither is a piece: a
    /// slice keeps its mask's serial, and so wins against an older mask of the whole length.
    ///
    /// ```
    /// use poruwhina::{Bitmap, Refusal};
    ///
    /// let stored = Bitmap::from([true, true, false]).with_serial(6);
    /// let edited = Bitmap::from([true, false, false]);
    /// assert_eq!(Bitmap::superseding(&stored, &edited.clone().with_serial(6)), Err(Refusal::SerialConflict));
    /// assert_eq!(Bitmap::superseding(&stored, &edited.clone().with_serial(7))?, edited);
    /// # Ok::<(), Refusal>(())
    /// ```
    pub fn superseding(first: &Bitmap, second: &Bitmap) -> Result<Bitmap, Refusal> {
        let answer = calls::superseding(first.record(), first.bytes(), second.record(), second.bytes());
        check(answer.refusal)?;
        let winner = if answer.second { second } else { first };
        let made = Bitmap::from_record(Arc::clone(&winner.bytes), winner.offset + answer.from, answer.mask);
        Ok(Bitmap { zeros: winner.zeros.clone(), ..made })
    }
}
