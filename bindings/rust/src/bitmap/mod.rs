//! The mask that owns its bytes: how it is made, sliced, counted and read.

mod combine;
mod counts;
mod cut;
mod lists;
mod operators;
mod order;
mod relations;
mod serial;
mod single;
mod text;
mod traits;

pub use lists::ListError;

use std::sync::{Arc, OnceLock};

use crate::builder::BitmapBuilder;
use crate::bytes::IntoBytes;
use crate::calls;
use crate::refusal::{Refusal, check, check_passed};

/// A list of flags in shared bytes that are never altered, with a zero count that is known or unknown, and the serial of the revocation
/// list that it was drawn up under.
///
/// Clones and slices share the bytes. The zero count is kept once it is known: [`unset_bits`](Bitmap::unset_bits) takes
/// `&self` and keeps it in a [`OnceLock`], so that a borrowed mask can be counted, by several threads too.
/// The bytes have one count, so it does not matter which thread kept it.
///
/// Two masks are equal if their lengths and flags are equal, whatever their bytes, start bits and serials.
///
/// In addition to the shared bytes, a mask keeps the number of the byte at which its flags begin, and their start bit in it, 0 to 7: so a
/// mask whose flags are far into a large file answers as its copy at bit 0 does.
///
/// ```
/// use poruwhina::Bitmap;
///
/// let permitted = Bitmap::from([true, false, true, true, false, true]);
/// let pit = permitted.sliced(2, 4)?;
/// assert_eq!(pit, Bitmap::try_new([0x0B], 4)?);
/// assert_eq!(pit.unset_bits(), 1);
/// assert_eq!(format!("{pit:?}"), "Bitmap(len 4, [1, 1, 0, 1])");
/// # Ok::<(), poruwhina::Refusal>(())
/// ```
#[derive(Clone)]
pub struct Bitmap {
    bytes: Arc<Vec<u8>>,
    // The byte that has the first flag, and the bit of that flag in it, 0 to 7.
    offset: usize,
    start: usize,
    length: usize,
    zeros: OnceLock<usize>,
    serial: u32,
}

/// Returns the number of frozen bytes of `length` flags.
pub(crate) const fn frozen_len(length: usize) -> usize {
    length.div_ceil(64) * 8
}

impl Bitmap {
    /// The largest number of flags that a mask can have.
    ///
    /// ```
    /// use poruwhina::{Bitmap, Refusal};
    ///
    /// assert!(Bitmap::new_zeroed(Bitmap::LIMIT).is_ok());
    /// assert_eq!(Bitmap::new_zeroed(Bitmap::LIMIT + 1), Err(Refusal::AboveLimit));
    /// ```
    pub const LIMIT: usize = 4_194_304;

    /// Returns the mask of no flags.
    ///
    /// ```
    /// assert!(poruwhina::Bitmap::new().is_empty());
    /// ```
    #[must_use]
    pub fn new() -> Bitmap {
        Bitmap::from_record(Arc::default(), 0, calls::bitmap_new())
    }

    /// Returns a mask of `length` zeros. Refused with 1 if `length` is above [`LIMIT`](Bitmap::LIMIT).
    ///
    /// ```
    /// assert_eq!(poruwhina::Bitmap::new_zeroed(70)?.unset_bits(), 70);
    /// # Ok::<(), poruwhina::Refusal>(())
    /// ```
    pub fn new_zeroed(length: usize) -> Result<Bitmap, Refusal> {
        Bitmap::written(length, |out| calls::new_zeroed(length, out))
    }

    /// Returns a mask of `length` ones. Refused with 1 if `length` is above [`LIMIT`](Bitmap::LIMIT).
    ///
    /// ```
    /// assert_eq!(poruwhina::Bitmap::ones(70)?.lazy_unset_bits(), Some(0));
    /// # Ok::<(), poruwhina::Refusal>(())
    /// ```
    pub fn ones(length: usize) -> Result<Bitmap, Refusal> {
        Bitmap::new_with_value(true, length)
    }

    /// Returns a mask of `length` flags that are all `flag`. Refused with 1 if `length` is above [`LIMIT`](Bitmap::LIMIT).
    ///
    /// ```
    /// use poruwhina::Bitmap;
    ///
    /// assert_eq!(Bitmap::new_with_value(true, 3)?, Bitmap::from([true; 3]));
    /// assert_eq!(Bitmap::new_with_value(false, 3)?, Bitmap::new_zeroed(3)?);
    /// # Ok::<(), poruwhina::Refusal>(())
    /// ```
    pub fn new_with_value(flag: bool, length: usize) -> Result<Bitmap, Refusal> {
        let mut builder = BitmapBuilder::with_capacity(length);
        builder.extend_constant(length, flag)?;
        Ok(builder.freeze())
    }

    /// Returns the mask of the first `length` flags of `bytes`, least significant bit first. Refused with 1 if `length` is above
    /// [`LIMIT`](Bitmap::LIMIT), with 2 if the bytes have fewer flags.
    ///
    /// A `Vec<u8>` is used without a copy; an array, a slice or an `Arc<[u8]>` is copied ([`IntoBytes`]).
    ///
    /// ```
    /// use poruwhina::{Bitmap, Refusal};
    ///
    /// let mask = Bitmap::try_new(vec![0x2D], 6)?;
    /// assert!(mask.iter().eq([true, false, true, true, false, true]));
    /// assert_eq!(Bitmap::try_new(vec![0x2D], 9), Err(Refusal::OutsideBytes));
    /// # Ok::<(), Refusal>(())
    /// ```
    pub fn try_new<By>(bytes: impl IntoBytes<By>, length: usize) -> Result<Bitmap, Refusal> {
        Bitmap::try_from_span(bytes, 0, length)
    }

    /// Returns the mask of the `length` flags of `bytes` that start at bit `start`. Refused with 1 if `length` is above
    /// [`LIMIT`](Bitmap::LIMIT), with 2 if the span is not in the bytes. `start` may be above the limit.
    ///
    /// ```
    /// use poruwhina::{Bitmap, Refusal};
    ///
    /// assert_eq!(Bitmap::try_from_span([0x2D], 2, 4)?, Bitmap::try_new([0x0B], 4)?);
    /// assert_eq!(Bitmap::try_from_span([0x2D], 2, 7), Err(Refusal::OutsideBytes));
    /// let file = vec![0x2D; 1_000_000];
    /// assert_eq!(Bitmap::try_from_span(file, 7_999_992, 6)?, Bitmap::try_new([0x2D], 6)?);
    /// # Ok::<(), Refusal>(())
    /// ```
    pub fn try_from_span<By>(bytes: impl IntoBytes<By>, start: usize, length: usize) -> Result<Bitmap, Refusal> {
        let bytes = bytes.into_bytes();
        let answer = calls::try_new(bytes_from(&bytes, start / 8, length)?, start % 8, length);
        check(answer.refusal)?;
        Ok(Bitmap::from_record(Arc::new(bytes), start / 8, answer.mask))
    }

    /// Returns the mask of the `length` flags of `bytes` that start at bit `start`, with the stated zero count `zeros`: for masks from
    /// elsewhere that have a count. Refused with 1 if `length` is above [`LIMIT`](Bitmap::LIMIT), with 2 if the span is not in the bytes,
    /// with 3 if the count is not exact.
    ///
    /// The flags are counted once, in this call. For bytes whose count does not matter use [`try_from_span`](Bitmap::try_from_span).
    ///
    /// ```
    /// use poruwhina::{Bitmap, Refusal};
    ///
    /// let imported = Bitmap::try_from_counted_span([0x2D], 0, 6, 2)?;
    /// assert_eq!(imported.lazy_unset_bits(), Some(2));
    /// assert_eq!(Bitmap::try_from_counted_span([0x2D], 0, 6, 3), Err(Refusal::FalseCount));
    /// # Ok::<(), Refusal>(())
    /// ```
    pub fn try_from_counted_span<By>(bytes: impl IntoBytes<By>, start: usize, length: usize, zeros: usize) -> Result<Bitmap, Refusal> {
        let bytes = bytes.into_bytes();
        let mask = calls::Mask { start: start % 8, length, zeros, known: 1, serial: 0 };
        let answer = calls::unset_bits(mask, bytes_from(&bytes, start / 8, length)?);
        check(answer.refusal)?;
        Ok(Bitmap::from_record(Arc::new(bytes), start / 8, answer.mask))
    }

    /// Returns the number of flags.
    ///
    /// ```
    /// assert_eq!(poruwhina::Bitmap::from([true, false]).len(), 2);
    /// ```
    #[must_use]
    pub fn len(&self) -> usize {
        self.length
    }

    /// Returns whether there are no flags.
    ///
    /// ```
    /// assert!(!poruwhina::Bitmap::from([false]).is_empty());
    /// ```
    #[must_use]
    pub fn is_empty(&self) -> bool {
        self.length == 0
    }

    /// Returns flag `i`, or none if `i` is not below the length.
    ///
    /// ```
    /// let mask = poruwhina::Bitmap::from([true, false]);
    /// assert_eq!((mask.get(0), mask.get(1), mask.get(2)), (Some(true), Some(false), None));
    /// ```
    #[must_use]
    pub fn get(&self, i: usize) -> Option<bool> {
        self.iter().nth(i)
    }

    /// Returns 32 flags starting at `index`, the first in the lowest bit, with zeros past the end.
    ///
    /// ```
    /// let mask = poruwhina::Bitmap::try_new([0x2D], 6)?;
    /// assert_eq!((mask.get_u32(2), mask.get_u32(usize::MAX)), (0x0B, 0));
    /// # Ok::<(), poruwhina::Refusal>(())
    /// ```
    #[must_use]
    pub fn get_u32(&self, index: usize) -> u32 {
        let answer = calls::get_u32(self.bytes(), self.start, self.length, index);
        check_passed(answer.refusal);
        answer.value as u32
    }

    /// Returns the bytes, starting at the one that has the first flag, the bit of that flag in it, 0 to 7, and the length.
    ///
    /// ```
    /// let mask = poruwhina::Bitmap::try_new([0x2D, 0xFF, 0], 24)?.sliced(10, 4)?;
    /// assert_eq!(mask.as_slice(), (&[0xFF, 0][..], 2, 4));
    /// # Ok::<(), poruwhina::Refusal>(())
    /// ```
    #[must_use]
    pub fn as_slice(&self) -> (&[u8], usize, usize) {
        (self.bytes(), self.start, self.length)
    }

    /// Returns the frozen bytes: 8 × ceil(length / 64) bytes that begin with the flags and are zero past the end. Two masks are equal
    /// if and only if their lengths and frozen bytes are equal.
    ///
    /// ```
    /// let mask = poruwhina::Bitmap::try_from_span([0x2D], 2, 4)?;
    /// assert_eq!(mask.frozen_bytes(), [0x0B, 0, 0, 0, 0, 0, 0, 0]);
    /// # Ok::<(), poruwhina::Refusal>(())
    /// ```
    #[must_use]
    pub fn frozen_bytes(&self) -> Vec<u8> {
        let mut builder = BitmapBuilder::new();
        builder.extend_from_bitmap(self).expect("a mask is at most as long as the limit");
        Arc::unwrap_or_clone(builder.freeze().bytes)
    }

    /// Returns the mask that `call` writes to new bytes with room for `length` flags.
    pub(crate) fn written(length: usize, call: impl FnOnce(&mut [u8]) -> calls::MaskAnswer) -> Result<Bitmap, Refusal> {
        let mut bytes = vec![0; frozen_len(length.min(Bitmap::LIMIT))];
        let answer = call(&mut bytes);
        check(answer.refusal)?;
        Ok(Bitmap::from_record(Arc::new(bytes), 0, answer.mask))
    }

    /// Returns the mask of a record that the library returned for these bytes, starting at the byte `offset`.
    pub(crate) fn from_record(bytes: Arc<Vec<u8>>, offset: usize, mask: calls::Mask) -> Bitmap {
        let zeros = if mask.known == 0 { OnceLock::new() } else { OnceLock::from(mask.zeros) };
        Bitmap { bytes, offset: offset + mask.start / 8, start: mask.start % 8, length: mask.length, zeros, serial: mask.serial }
    }

    /// Returns the record for the library, to be used only with `bytes`, without its count: a known one is exact, and only the counts that
    /// `slice` and `superseding` return depend on it (the repository's theorem on counts), so nothing is counted again.
    pub(crate) fn record(&self) -> calls::Mask {
        calls::Mask { start: self.start, length: self.length, zeros: 0, known: 0, serial: self.serial }
    }

    /// Returns the mask of a record that the library returned for `bytes`.
    pub(crate) fn over_its_bytes(&self, mask: calls::Mask) -> Bitmap {
        Bitmap::from_record(Arc::clone(&self.bytes), self.offset, mask)
    }

    /// Returns the record for the library, to be used only with `bytes`, with its count if that is known.
    pub(crate) fn counted_record(&self) -> calls::Mask {
        let zeros = self.lazy_unset_bits();
        calls::Mask { zeros: zeros.unwrap_or(0), known: u8::from(zeros.is_some()), ..self.record() }
    }

    /// Returns the bytes, starting at the one that has the first flag. Bytes after the last flag are lent too: whole words are read faster.
    pub(crate) fn bytes(&self) -> &[u8] {
        &self.bytes[self.offset..]
    }
}

/// Returns the bytes starting at the byte `from`, or if `from` is past the end the refusal that the library has for a span of `length`
/// flags there.
fn bytes_from(bytes: &[u8], from: usize, length: usize) -> Result<&[u8], Refusal> {
    let refusal = if length > Bitmap::LIMIT { Refusal::AboveLimit } else { Refusal::OutsideBytes };
    bytes.get(from..).ok_or(refusal)
}
