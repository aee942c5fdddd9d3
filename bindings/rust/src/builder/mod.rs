//! The builder that owns its buffer: how it is made, read and frozen.

mod append;
mod extend;

use std::fmt;
use std::sync::Arc;

use crate::bitmap::{Bitmap, frozen_len};
use crate::calls;
use crate::refusal::check_passed;

/// A builder of a [`Bitmap`]: single flags, runs, words and spans are appended, and then frozen to the mask.
///
/// Each append is refused with 1 if it would lead to more than [`Bitmap::LIMIT`] flags; its other refusals are listed with it. After
/// a refusal the builder is unchanged. The buffer grows with the flags, so no append is refused for lack of room.
///
/// ```
/// use poruwhina::BitmapBuilder;
///
/// let mut builder = BitmapBuilder::new();
/// builder.extend_constant(60, true)?;
/// builder.push(false)?;
/// builder.extend_from_slice(&[0x2D], 2, 4)?;
/// assert_eq!(format!("{:?}", builder.clone().freeze().sliced(58, 7)?), "Bitmap(len 7, [1, 1, 0, 1, 1, 0, 1])");
/// assert_eq!(builder.freeze().unset_bits(), 2);
/// # Ok::<(), poruwhina::Refusal>(())
/// ```
#[derive(Clone)]
#[repr(C)]
pub struct BitmapBuilder {
    // The library's record. `word` is kept apart, so that the numbers of an answer are copied one by one: a compiler makes one load of
    // two neighbours, which the processor cannot serve from the two stores that the call has just made.
    length: usize,
    ones: usize,
    buffer: Vec<u8>,
    word: u64,
    serial: u32,
}

impl BitmapBuilder {
    /// Returns a builder with no flags.
    ///
    /// ```
    /// assert!(poruwhina::BitmapBuilder::new().is_empty());
    /// ```
    #[must_use]
    pub fn new() -> BitmapBuilder {
        BitmapBuilder::with_capacity(0)
    }

    /// Returns a builder with no flags, and with memory for `flags` flags, at most [`Bitmap::LIMIT`].
    ///
    /// ```
    /// assert!(poruwhina::BitmapBuilder::with_capacity(1_000).is_empty());
    /// ```
    #[must_use]
    pub fn with_capacity(flags: usize) -> BitmapBuilder {
        let bytes = frozen_len(flags.min(Bitmap::LIMIT));
        let calls::Builder { length, word, ones } = calls::builder_new();
        BitmapBuilder { length, ones, buffer: Vec::with_capacity(bytes), word, serial: 0 }
    }

    /// Returns the number of flags.
    ///
    /// ```
    /// let mut builder = poruwhina::BitmapBuilder::new();
    /// builder.extend_constant(70, false)?;
    /// assert_eq!(builder.len(), 70);
    /// # Ok::<(), poruwhina::Refusal>(())
    /// ```
    #[must_use]
    pub fn len(&self) -> usize {
        self.length
    }

    /// Returns whether there are no flags.
    ///
    /// ```
    /// let mut builder = poruwhina::BitmapBuilder::new();
    /// builder.push(false)?;
    /// assert!(!builder.is_empty());
    /// # Ok::<(), poruwhina::Refusal>(())
    /// ```
    #[must_use]
    pub fn is_empty(&self) -> bool {
        self.length == 0
    }

    /// Returns the serial that the frozen mask will have: 0, unless [`with_serial`](BitmapBuilder::with_serial) set it. No append changes
    /// it, not even one that copies a mask with another serial.
    ///
    /// ```
    /// use poruwhina::{Bitmap, BitmapBuilder};
    ///
    /// let mut builder = BitmapBuilder::new().with_serial(6);
    /// builder.extend_from_bitmap(&Bitmap::from([true]).with_serial(9))?;
    /// assert_eq!((builder.serial(), builder.freeze().serial()), (6, 6));
    /// # Ok::<(), poruwhina::Refusal>(())
    /// ```
    #[must_use]
    pub fn serial(&self) -> u32 {
        self.serial
    }

    /// Returns the builder with its serial changed to `serial`.
    ///
    /// ```
    /// assert_eq!(poruwhina::BitmapBuilder::new().with_serial(6).freeze().serial(), 6);
    /// ```
    #[must_use]
    pub fn with_serial(self, serial: u32) -> BitmapBuilder {
        BitmapBuilder { serial, ..self }
    }

    /// Makes room for `flags` more flags, at most up to [`Bitmap::LIMIT`] in all, so that their appends do not move the flags.
    ///
    /// ```
    /// let mut builder = poruwhina::BitmapBuilder::new();
    /// builder.reserve(1_000);
    /// assert!(builder.is_empty());
    /// ```
    pub fn reserve(&mut self, flags: usize) {
        let bytes = frozen_len(self.length.saturating_add(flags).min(Bitmap::LIMIT));
        self.buffer.reserve(bytes.saturating_sub(self.buffer.len()));
    }

    /// Removes all flags. The serial and the memory stay.
    ///
    /// ```
    /// use poruwhina::{Bitmap, BitmapBuilder};
    ///
    /// let mut builder = BitmapBuilder::new().with_serial(6);
    /// builder.extend_constant(70, true)?;
    /// builder.clear();
    /// builder.push(false)?;
    /// assert_eq!((builder.len(), builder.serial()), (1, 6));
    /// assert_eq!(builder.freeze(), Bitmap::from([false]));
    /// # Ok::<(), poruwhina::Refusal>(())
    /// ```
    pub fn clear(&mut self) {
        self.set_record(calls::builder_new());
    }

    /// Returns the mask of the flags, with its zero count known and the builder's serial. The buffer becomes the mask's bytes.
    ///
    /// ```
    /// let mut builder = poruwhina::BitmapBuilder::new();
    /// builder.push_word_with_len(0x2D, 6)?;
    /// let mask = builder.freeze();
    /// assert_eq!((mask.len(), mask.lazy_unset_bits()), (6, Some(2)));
    /// # Ok::<(), poruwhina::Refusal>(())
    /// ```
    #[must_use]
    pub fn freeze(mut self) -> Bitmap {
        let answer = calls::freeze(self.record(), &mut self.buffer, self.serial);
        check_passed(answer.refusal);
        self.frozen(answer.mask)
    }

    /// Returns the mask of the flags, or none if all flags are set, also if there are no flags: Arrow's validity.
    ///
    /// **Not for a permission mask.** No mask means all ones here, as in Arrow. In [`may_reassign`](crate::may_reassign) no
    /// permission mask means the opposite, *no truck*: an operator with every truck would lose them all. End the builder of a
    /// permission mask with [`freeze`](BitmapBuilder::freeze). An `Option<Bitmap>` does not convert to a
    /// [`Permission`](crate::Permission), so passing it on does not compile.
    ///
    /// ```
    /// use poruwhina::{Bitmap, BitmapBuilder};
    ///
    /// let mut builder = BitmapBuilder::new();
    /// builder.push(true)?;
    /// assert_eq!(builder.clone().into_opt_validity(), None);
    /// builder.push(false)?;
    /// assert_eq!(builder.into_opt_validity(), Some(Bitmap::from([true, false])));
    /// # Ok::<(), poruwhina::Refusal>(())
    /// ```
    #[must_use]
    pub fn into_opt_validity(mut self) -> Option<Bitmap> {
        let answer = calls::into_opt_validity(self.record(), &mut self.buffer, self.serial);
        check_passed(answer.refusal);
        answer.present.then(|| self.frozen(answer.mask))
    }

    /// Returns the mask over the frozen bytes, which are at the start of the buffer.
    fn frozen(mut self, mask: calls::Mask) -> Bitmap {
        self.buffer.truncate(frozen_len(mask.length));
        Bitmap::from_record(Arc::new(self.buffer), 0, mask)
    }

    #[inline]
    fn record(&self) -> calls::Builder {
        calls::Builder { length: self.length, word: self.word, ones: self.ones }
    }

    /// Changes the record to an earlier one for this buffer, or to that of no flags.
    fn set_record(&mut self, record: calls::Builder) {
        let calls::Builder { length, word, ones } = record;
        (self.length, self.word, self.ones) = (length, word, ones);
    }
}

/// The default is a builder with no flags.
///
/// ```
/// assert_eq!(poruwhina::BitmapBuilder::default().len(), 0);
/// ```
impl Default for BitmapBuilder {
    fn default() -> BitmapBuilder {
        BitmapBuilder::new()
    }
}

/// Shows the flags as the `Debug` of a [`Bitmap`] does.
///
/// ```
/// let mut builder = poruwhina::BitmapBuilder::new();
/// builder.push(true)?;
/// assert_eq!(format!("{builder:?}"), "BitmapBuilder(len 1, [1])");
/// # Ok::<(), poruwhina::Refusal>(())
/// ```
impl fmt::Debug for BitmapBuilder {
    fn fmt(&self, f: &mut fmt::Formatter<'_>) -> fmt::Result {
        write!(f, "BitmapBuilder(")?;
        self.clone().freeze().fmt_flags(f)?;
        write!(f, ")")
    }
}
