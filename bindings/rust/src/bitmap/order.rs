//! How masks are compared: equal, in which order, and by which hash.

use std::cmp::Ordering;
use std::hash::{Hash, Hasher};

use super::Bitmap;
use crate::calls;
use crate::refusal::check_passed;

/// Two masks are equal if their lengths and flags are equal, whatever their serials.
///
/// ```
/// use poruwhina::Bitmap;
///
/// assert_eq!(Bitmap::try_from_span([0x2D], 2, 4)?, Bitmap::try_new([0xFB], 4)?);
/// assert_ne!(Bitmap::from([false]), Bitmap::from([false, false]));
/// # Ok::<(), poruwhina::Refusal>(())
/// ```
impl PartialEq for Bitmap {
    fn eq(&self, other: &Bitmap) -> bool {
        let answer = calls::eq(self.record(), self.bytes(), other.record(), other.bytes());
        check_passed(answer.refusal);
        answer.value
    }
}

impl Eq for Bitmap {}

/// Masks are in the order of their flags, and then of their lengths, as `Vec<bool>`s are: at the first flag in which they differ the mask
/// without it is less, and if there is none the shorter mask. Serials are ignored, as by `==`: for the later one of two masks use
/// [`Bitmap::superseding`].
///
/// ```
/// use poruwhina::Bitmap;
///
/// let mut masks = [Bitmap::from([true]), Bitmap::from([false, true]), Bitmap::from([false])];
/// masks.sort();
/// assert_eq!(masks, [Bitmap::from([false]), Bitmap::from([false, true]), Bitmap::from([true])]);
/// ```
impl Ord for Bitmap {
    fn cmp(&self, other: &Bitmap) -> Ordering {
        let equal_words = self.chunks().zip(other.chunks()).take_while(|(word, others)| word == others).count();
        self.iter().skip(64 * equal_words).cmp(other.iter().skip(64 * equal_words))
    }
}

impl PartialOrd for Bitmap {
    fn partial_cmp(&self, other: &Bitmap) -> Option<Ordering> {
        Some(self.cmp(other))
    }
}

/// Masks that are equal have equal hashes: flags and length are hashed, the serial is not. Nor is the kept count, which is all that can
/// change in a shared mask: so a mask may be a key, although `clippy::mutable_key_type` warns of it (`ignore-interior-mutability` in
/// `clippy.toml` takes `poruwhina::Bitmap`).
///
/// ```
/// use std::collections::HashSet;
///
/// use poruwhina::Bitmap;
///
/// let masks: HashSet<Bitmap> = [3, 4].map(|serial| Bitmap::from([true, false]).with_serial(serial)).into();
/// assert_eq!(masks.len(), 1);
/// ```
impl Hash for Bitmap {
    fn hash<H: Hasher>(&self, state: &mut H) {
        let words = self.chunks();
        let last = words.remainder();
        words.for_each(|word| word.hash(state));
        (last, self.len()).hash(state);
    }
}
