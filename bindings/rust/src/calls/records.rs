//! The records of the C interface. In each answer `refusal` is the number of the first check that failed, or 0. On refusal the answer has
//! what the call would have changed, unchanged: a mask, a builder, a cursor's place, the cursor of an offer, a window's numbers. Every
//! other field is then 0.

/// A mask: a span of its bytes, its zero count and its serial. `zeros` is read only if `known` is not 0; an unknown count is returned as 0.
///
/// ```
/// use poruwhina::calls::{try_new, Mask};
///
/// assert_eq!(try_new(&[0x2D], 2, 4).mask, Mask { start: 2, length: 4, zeros: 0, known: 0, serial: 0 });
/// ```
#[repr(C)]
#[derive(Clone, Copy, Debug, PartialEq, Eq, Default)]
pub struct Mask {
    /// The bit of its bytes that is its first flag.
    pub start: usize,
    /// The number of its flags.
    pub length: usize,
    /// The number of its zeros, if it is known.
    pub zeros: usize,
    /// 0 if the number of zeros is unknown.
    pub known: u8,
    /// The serial of the revocation list that the mask was drawn up under.
    pub serial: u32,
}

/// A builder: its length, the word in progress and the number of ones in the finished words, which are in its buffer. The caller keeps its
/// serial.
///
/// ```
/// use poruwhina::calls::{builder_new, extend_constant, Builder};
///
/// let longer = extend_constant(builder_new(), &mut [0; 16], 66, true).builder;
/// assert_eq!(longer, Builder { length: 66, word: 0b11, ones: 64 });
/// ```
#[repr(C)]
#[derive(Clone, Copy, Debug, PartialEq, Eq, Default)]
pub struct Builder {
    /// The number of its flags.
    pub length: usize,
    /// The flags after the last finished word, zero above.
    pub word: u64,
    /// The number of ones in the finished words.
    pub ones: usize,
}

/// A cursor: a span and the next place in it. `masked` is 0 for a cursor that [`true_idx_new`](super::true_idx_new) makes without a mask,
/// else 1; only [`true_idx_next`](super::true_idx_next) and [`true_idx_next_chunk`](super::true_idx_next_chunk) read it.
///
/// ```
/// use poruwhina::calls::{iter_next, Cursor};
///
/// // A cursor that a caller made up is answered too.
/// let step = iter_next(Cursor { start: 0, length: 6, place: 7, masked: 1 }, &[0x2D]);
/// assert_eq!(step.refusal, 6);
/// ```
#[repr(C)]
#[derive(Clone, Copy, Debug, PartialEq, Eq, Default)]
pub struct Cursor {
    /// The first bit of its span.
    pub start: usize,
    /// The length of its span.
    pub length: usize,
    /// The next place, counted in flags, or in words for chunks.
    pub place: usize,
    /// 0 if there is no mask.
    pub masked: u8,
}

/// A number or a refusal.
///
/// ```
/// use poruwhina::calls::{get_u32, NumberAnswer};
///
/// assert_eq!(get_u32(&[0x2D], 0, 9, 0), NumberAnswer { refusal: 2, value: 0 });
/// ```
#[repr(C)]
#[derive(Clone, Copy, Debug, PartialEq, Eq, Default)]
pub struct NumberAnswer {
    /// The number of the first check that failed, or 0.
    pub refusal: u8,
    /// The answer.
    pub value: usize,
}

/// A flag or a refusal.
///
/// ```
/// use poruwhina::calls::{bitmap_new, eq, FlagAnswer};
///
/// assert_eq!(eq(bitmap_new(), &[], bitmap_new(), &[]), FlagAnswer { refusal: 0, value: true });
/// ```
#[repr(C)]
#[derive(Clone, Copy, Debug, PartialEq, Eq, Default)]
pub struct FlagAnswer {
    /// The number of the first check that failed, or 0.
    pub refusal: u8,
    /// The answer.
    pub value: bool,
}

/// A position, none, or a refusal.
///
/// ```
/// use poruwhina::calls::{nth_set_bit_idx, PositionAnswer};
///
/// assert_eq!(nth_set_bit_idx(&[0x20], 0, 8, 0, 0), PositionAnswer { refusal: 0, found: true, value: 5 });
/// ```
#[repr(C)]
#[derive(Clone, Copy, Debug, PartialEq, Eq, Default)]
pub struct PositionAnswer {
    /// The number of the first check that failed, or 0.
    pub refusal: u8,
    /// Whether there is such a position.
    pub found: bool,
    /// The position, or 0 if there is none.
    pub value: usize,
}

/// The position of a set bit of a word, or the number of its set bits. Nothing is refused: `refusal` is 0.
///
/// ```
/// use poruwhina::calls::{nth_set_bit_u64, NthAnswer};
///
/// assert_eq!(nth_set_bit_u64(0x2D, 2), NthAnswer { refusal: 0, found: true, value: 3, ones: 0 });
/// assert_eq!(nth_set_bit_u64(0x2D, 9), NthAnswer { refusal: 0, found: false, value: 0, ones: 4 });
/// ```
#[repr(C)]
#[derive(Clone, Copy, Debug, PartialEq, Eq, Default)]
pub struct NthAnswer {
    /// Always 0.
    pub refusal: u8,
    /// Whether there is such a bit.
    pub found: bool,
    /// Its position, or 0 if there is no such bit.
    pub value: u32,
    /// The number of set bits of the word if there is no such bit, else 0.
    pub ones: u32,
}

impl NthAnswer {
    /// Returns the position, or the number of set bits as an error. polars-arrow returns no number: its result is `.position().ok()`.
    ///
    /// ```
    /// use poruwhina::calls::{nth_set_bit_u32, Missing};
    ///
    /// assert_eq!(nth_set_bit_u32(0x8000_0001, 1).position(), Ok(31));
    /// assert_eq!(nth_set_bit_u32(0x8000_0001, 7).position(), Err(Missing { ones: 2 }));
    ///
    /// // Set bit 33 of two words in a row: the first has 32, and one of the second is left to pass over.
    /// let Err(first) = nth_set_bit_u32(u32::MAX, 33).position() else { unreachable!() };
    /// assert_eq!(nth_set_bit_u32(0b1010, 33 - first.ones).position(), Ok(3));
    /// ```
    #[inline]
    pub fn position(self) -> Result<u32, Missing> {
        if self.found { Ok(self.value) } else { Err(Missing { ones: self.ones }) }
    }
}

/// The error that a word has no such set bit: only `ones` of its bits are set.
///
/// ```
/// use poruwhina::calls::{nth_set_bit_u64, Missing};
///
/// let missing: Missing = nth_set_bit_u64(0b1000, 1).position().unwrap_err();
/// assert_eq!(missing.to_string(), "of the word's bits 1 are set");
/// ```
#[derive(Clone, Copy, Debug, PartialEq, Eq, Hash)]
pub struct Missing {
    /// The number of set bits of the word.
    pub ones: u32,
}

impl std::fmt::Display for Missing {
    fn fmt(&self, f: &mut std::fmt::Formatter<'_>) -> std::fmt::Result {
        write!(f, "of the word's bits {} are set", self.ones)
    }
}

impl std::error::Error for Missing {}

/// A position, if there is one, and the number of windows of 32 flags read, or a refusal.
///
/// ```
/// use poruwhina::calls::{next_and_not, try_new, NextAnswer};
///
/// let mask = try_new(&[0x20], 0, 8).mask;
/// assert_eq!(next_and_not(mask, &[0x20], false, mask, &[], 6), NextAnswer { refusal: 0, found: true, position: 5, windows: 2 });
/// ```
#[repr(C)]
#[derive(Clone, Copy, Debug, PartialEq, Eq, Default)]
pub struct NextAnswer {
    /// The number of the first check that failed, or 0.
    pub refusal: u8,
    /// Whether there is such a position.
    pub found: bool,
    /// The position, or 0 if there is none.
    pub position: usize,
    /// The number of windows read.
    pub windows: usize,
}

/// A truck, if there is one, the cursor for the next call and the number of windows of 32 flags read, or a refusal and the cursor.
///
/// ```
/// use poruwhina::calls::{offer, try_new, OfferAnswer};
///
/// let mask = try_new(&[0x20], 0, 8).mask;
/// let answer = OfferAnswer { refusal: 0, found: true, truck: 5, cursor: 6, windows: 1 };
/// assert_eq!(offer(true, mask, &[0x20], false, mask, &[], 0), answer);
/// ```
#[repr(C)]
#[derive(Clone, Copy, Debug, PartialEq, Eq, Default)]
pub struct OfferAnswer {
    /// The number of the first check that failed, or 0.
    pub refusal: u8,
    /// Whether there is such a truck.
    pub found: bool,
    /// The truck, or 0 if there is none.
    pub truck: usize,
    /// The cursor for the next call: one past the truck, or unchanged if there is none.
    pub cursor: usize,
    /// The number of windows read.
    pub windows: usize,
}

/// A mask or a refusal.
///
/// ```
/// use poruwhina::calls::{try_new, Mask, MaskAnswer};
///
/// assert_eq!(try_new(&[0x2D], 2, 7), MaskAnswer { refusal: 2, mask: Mask::default() });
/// ```
#[repr(C)]
#[derive(Clone, Copy, Debug, PartialEq, Eq, Default)]
pub struct MaskAnswer {
    /// The number of the first check that failed, or 0.
    pub refusal: u8,
    /// The mask.
    pub mask: Mask,
}

/// A mask, or none if all flags are set, or a refusal.
///
/// ```
/// use poruwhina::calls::{builder_new, into_opt_validity, ValidityAnswer};
///
/// assert_eq!(into_opt_validity(builder_new(), &mut [], 0), ValidityAnswer::default());
/// ```
#[repr(C)]
#[derive(Clone, Copy, Debug, PartialEq, Eq, Default)]
pub struct ValidityAnswer {
    /// The number of the first check that failed, or 0.
    pub refusal: u8,
    /// Whether there is a mask: then at least one flag is 0.
    pub present: bool,
    /// The mask, or an empty record if there is none.
    pub mask: Mask,
}

/// The number of zeros of a mask and the mask with its count known, or a refusal and the mask unchanged.
///
/// ```
/// use poruwhina::calls::{try_new, unset_bits, Mask, ZerosAnswer};
///
/// let mask = Mask { start: 0, length: 6, zeros: 2, known: 1, serial: 0 };
/// assert_eq!(unset_bits(try_new(&[0x2D], 0, 6).mask, &[0x2D]), ZerosAnswer { refusal: 0, zeros: 2, mask });
/// ```
#[repr(C)]
#[derive(Clone, Copy, Debug, PartialEq, Eq, Default)]
pub struct ZerosAnswer {
    /// The number of the first check that failed, or 0.
    pub refusal: u8,
    /// The number of zeros.
    pub zeros: usize,
    /// The mask with its count known, or unchanged on refusal.
    pub mask: Mask,
}

/// The winner of two masks, or a refusal.
///
/// ```
/// use poruwhina::calls::{Mask, superseding, try_new};
///
/// let (stored, edited) = ([0x2D, 0xF0], [0x0F]);
/// let first = Mask { serial: 5, ..try_new(&stored, 9, 4).mask };
/// let second = Mask { serial: 4, ..try_new(&edited, 0, 4).mask };
/// let answer = superseding(first, &stored, second, &edited);
/// assert_eq!((answer.second, answer.from, answer.to, answer.mask), (false, 1, 2, Mask { start: 1, ..first }));
/// assert_eq!(answer.bytes(&stored, &edited), [0xF0]);
/// ```
#[repr(C)]
#[derive(Clone, Copy, Debug, PartialEq, Eq, Default)]
pub struct PartAnswer {
    /// The number of the first check that failed, or 0.
    pub refusal: u8,
    /// Whether the second mask is the winner.
    pub second: bool,
    /// The first byte of the winner's part of the slice passed with it.
    pub from: usize,
    /// The byte past the last one of that part.
    pub to: usize,
    /// The winner's record over that part.
    pub mask: Mask,
}

impl PartAnswer {
    /// Returns the winner's bytes, a part of one of the two slices that were passed to the call: after a refusal an empty part of `first`.
    /// Panics if that slice is shorter than the one passed to the call and does not have the part.
    ///
    /// ```
    /// use poruwhina::calls::{bitmap_new, superseding};
    ///
    /// assert_eq!(superseding(bitmap_new(), &[], bitmap_new(), &[]).bytes(&[], &[]), []);
    /// ```
    pub fn bytes<'a>(&self, first: &'a [u8], second: &'a [u8]) -> &'a [u8] {
        &(if self.second { second } else { first })[self.from..self.to]
    }
}

/// The builder after a call, or a refusal and the builder unchanged.
///
/// ```
/// use poruwhina::calls::{builder_new, push, BuilderAnswer};
///
/// assert_eq!(push(builder_new(), &mut [], true), BuilderAnswer { refusal: 9, builder: builder_new() });
/// ```
#[repr(C)]
#[derive(Clone, Copy, Debug, PartialEq, Eq, Default)]
pub struct BuilderAnswer {
    /// The number of the first check that failed, or 0.
    pub refusal: u8,
    /// The builder.
    pub builder: Builder,
}

/// A new cursor or a refusal.
///
/// ```
/// use poruwhina::calls::{chunks_new, Cursor, CursorAnswer};
///
/// assert_eq!(chunks_new(&[], 0, 1), CursorAnswer { refusal: 2, cursor: Cursor::default() });
/// ```
#[repr(C)]
#[derive(Clone, Copy, Debug, PartialEq, Eq, Default)]
pub struct CursorAnswer {
    /// The number of the first check that failed, or 0.
    pub refusal: u8,
    /// The cursor.
    pub cursor: Cursor,
}

/// The item that a cursor returns and the cursor after the step, or a refusal and the cursor unchanged. `value` is a word, a run's start,
/// a flag or a position; `count` is a run's length, the number of flags of a remainder, of flags counted or of positions written.
///
/// ```
/// use poruwhina::calls::{iter_next, Cursor, Step};
///
/// let end = Cursor { start: 0, length: 6, place: 6, masked: 1 };
/// assert_eq!(iter_next(end, &[0x2D]), Step { refusal: 0, found: false, value: 0, count: 0, cursor: end });
/// ```
#[derive(Clone, Copy, Debug, PartialEq, Eq, Default)]
pub struct Step {
    /// The number of the first check that failed, or 0.
    pub refusal: u8,
    /// Whether there is an item; false at the end and on refusal.
    pub found: bool,
    /// A word, a run's start, a flag as 0 or 1, or a position.
    pub value: u64,
    /// A run's length, or the number of flags of a remainder, of flags counted or of positions written.
    pub count: usize,
    /// The cursor after the step.
    pub cursor: Cursor,
}

/// A step as an export returns it: it has only the place of the cursor.
#[repr(C)]
#[derive(Clone, Copy)]
pub(super) struct StepAnswer {
    pub refusal: u8,
    pub found: bool,
    pub value: u64,
    pub count: usize,
    pub place: usize,
}

impl StepAnswer {
    /// Returns the step of `cursor`, moved to the place that the call returned.
    #[inline]
    pub(super) fn moving(self, cursor: Cursor) -> Step {
        let StepAnswer { refusal, found, value, count, place } = self;
        Step { refusal, found, value, count, cursor: Cursor { place, ..cursor } }
    }
}

/// The parts of an aligned split, or a refusal.
///
/// ```
/// // A span that fits one word is all prefix.
/// let split = poruwhina::calls::aligned_new(&[0x2D], 0, 6, 0);
/// assert_eq!((split.prefix, split.prefix_len, split.bulk_len, split.suffix_len), (0x2D, 6, 0, 0));
/// ```
#[repr(C)]
#[derive(Clone, Copy, Debug, PartialEq, Eq, Default)]
pub struct SplitAnswer {
    /// The number of the first check that failed, or 0.
    pub refusal: u8,
    /// The flags before the whole words.
    pub prefix: u64,
    /// The number of flags of the prefix.
    pub prefix_len: usize,
    /// The first byte of the whole words.
    pub bulk_start: usize,
    /// The number of whole words.
    pub bulk_len: usize,
    /// The flags after the whole words.
    pub suffix: u64,
    /// The number of flags of the suffix.
    pub suffix_len: usize,
}

/// Two spans, or a refusal.
///
/// ```
/// use poruwhina::calls::{split_at_unchecked, SpansAnswer};
///
/// assert_eq!(split_at_unchecked(&[0x2D], 0, 6, 7), SpansAnswer { refusal: 6, ..SpansAnswer::default() });
/// ```
#[repr(C)]
#[derive(Clone, Copy, Debug, PartialEq, Eq, Default)]
pub struct SpansAnswer {
    /// The number of the first check that failed, or 0.
    pub refusal: u8,
    /// The first bit of the first span.
    pub first_start: usize,
    /// The length of the first span.
    pub first_length: usize,
    /// The first bit of the second span.
    pub second_start: usize,
    /// The length of the second span.
    pub second_length: usize,
}

/// A window of minutes without its arrays, or a refusal.
///
/// ```
/// use poruwhina::calls::{WindowAnswer, activity_new};
///
/// assert_eq!(activity_new(&mut [0; 256], &mut [0; 64], 0), WindowAnswer { refusal: 16, ..WindowAnswer::default() });
/// ```
#[repr(C)]
#[derive(Clone, Copy, Debug, PartialEq, Eq, Default)]
pub struct WindowAnswer {
    /// The number of the check that failed, or 0.
    pub refusal: u8,
    /// The place of the next word.
    pub place: usize,
    /// The number of words that the window has.
    pub fill: usize,
    /// The largest number of words that the window keeps, 1 to 256.
    pub width: usize,
}
