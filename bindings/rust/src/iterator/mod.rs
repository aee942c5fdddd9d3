//! Iterators over a mask: its flags, runs of ones, positions of ones and words. Each step is a call of the library, except for positions
//! from the front, of which a call returns many.
//!
//! A step from the back ends the cursor's span before what it returns: the cursor is then that of the flags before it.

mod flags;
mod owned;
mod positions;
mod runs;
mod words;

pub use flags::BitmapIter;
pub use owned::BitmapIntoIter;
pub use positions::TrueIdxIter;
pub use runs::SlicesIterator;
pub use words::BitChunks;

use crate::bitmap::Bitmap;
use crate::calls;
use crate::refusal::{Refusal, check, check_passed};

/// A cursor of the library and the bytes that it was made for.
#[derive(Clone, Copy, Debug)]
struct Cursor<'a> {
    bytes: &'a [u8],
    record: calls::Cursor,
}

impl<'a> Cursor<'a> {
    fn new(bytes: &'a [u8], answer: calls::CursorAnswer) -> Result<Cursor<'a>, Refusal> {
        check(answer.refusal)?;
        Ok(Cursor { bytes, record: answer.cursor })
    }

    /// Returns the cursor of an answer for a whole mask, which no check refuses.
    fn over(bytes: &'a [u8], answer: calls::CursorAnswer) -> Cursor<'a> {
        Cursor::new(bytes, answer).expect("a mask of this crate passes its checks")
    }

    /// Moves the cursor to where the answer left it, and returns the answer.
    #[inline]
    fn took(&mut self, answer: calls::Step) -> calls::Step {
        check_passed(answer.refusal);
        self.record = answer.cursor;
        answer
    }

    #[inline]
    fn step(&mut self, call: impl Fn(calls::Cursor, &[u8]) -> calls::Step) -> Option<calls::Step> {
        let answer = self.took(call(self.record, self.bytes));
        answer.found.then_some(answer)
    }

    /// Returns the number of flags after the cursor's place.
    fn rest(&self) -> usize {
        self.record.length - self.record.place
    }
}

/// Returns the record and the bytes of a mask, or an empty record and no bytes if it is absent: the library does not read those.
pub(crate) fn record_or_absent(mask: Option<&Bitmap>) -> (calls::Mask, &[u8]) {
    mask.map_or((calls::Mask::default(), &[]), |mask| (mask.record(), mask.bytes()))
}
