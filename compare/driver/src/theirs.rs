//! The original's side of a request: its bitmaps and builders made from our records, and its answers as the model's.

use crate::listed::{Listed, Met};
use crate::request::Request;
use model::{Answer, Builder, Cursor, Lent, Mask, State, frozen_size};
use original::SharedStorage;
use original::bitmap::bitmask::BitMask;
use original::bitmap::{Bitmap, BitmapBuilder};

/// The answer of the original: its numbers; its record, if it has one to compare; and the bytes that it writes at the start of the
/// output, if it writes.
#[derive(Debug, Default)]
pub struct Outcome {
    pub refusal: u8,
    pub values: Vec<u64>,
    pub record: Option<State>,
    pub written: Option<Vec<u8>>,
}

impl Outcome {
    /// Returns an accepted answer with these numbers.
    pub fn words(values: impl IntoIterator<Item = u64>) -> Self {
        Self { values: values.into_iter().collect(), ..Self::default() }
    }

    /// Returns an accepted answer with these numbers.
    pub fn values(values: impl IntoIterator<Item = usize>) -> Self {
        Self::words(values.into_iter().map(|value| value as u64))
    }

    /// Returns the answer with this record.
    pub fn record(self, state: State) -> Self {
        Self { record: Some(state), ..self }
    }

    /// Returns an accepted answer with the record of a bitmap.
    pub fn mask(bitmap: &Bitmap) -> Self {
        Self::default().record(State::Mask(mask(bitmap)))
    }
}

/// A function that takes the answers of a cursor, one after another.
pub type Visit<'a> = &'a mut dyn FnMut(&[u64]);

/// How the original is asked for a call. Except for `Refusing`, it is asked only if the model accepts the request.
pub enum Theirs {
    /// The original has no such call, or its text is missing.
    Absent,
    /// Its own answer; none if the request is outside of what the original defines.
    Answer(fn(&Request, &mut Met) -> Option<Outcome>),
    /// Its own answer to a request and the model's refusal; none if the original does not answer such a refusal.
    Refusing(fn(&Request, u8, &mut Met) -> Option<Outcome>),
    /// The flags appended to a builder.
    Append(fn(&Request, &mut BitmapBuilder)),
    /// A builder's end; none if `into_opt_validity` finds all flags set.
    Finish(fn(BitmapBuilder) -> Option<Bitmap>),
    /// A new cursor: our step, and the original's answers from first to last, each passed to the visitor.
    Cursor(fn(Cursor, &[u8]) -> Answer, fn(&Request, &mut Met, Visit)),
    /// A bitmap made from as many bitmaps as the call takes masks.
    Combine(fn(&Request, &[Bitmap]) -> Bitmap),
}

/// Returns the original's bitmap of a mask, over a copy of its bytes.
pub fn bitmap(lent: Lent) -> Bitmap {
    let storage = SharedStorage::from_vec(lent.bytes.to_vec());
    // SAFETY: the span lies in the bytes and the count is exact or unknown, which accepted requests have.
    unsafe { Bitmap::from_inner_unchecked(storage, lent.mask.start, lent.mask.length, lent.mask.zeros) }
}

/// Returns the original's bit mask of a mask's span.
pub fn bit_mask<'a>(lent: &Lent<'a>) -> BitMask<'a> {
    BitMask::new(lent.bytes, lent.mask.start, lent.mask.length)
}

/// Returns the record of the original's bitmap, with serial 0.
pub fn mask(bitmap: &Bitmap) -> Mask {
    Mask { start: original::offset(bitmap), length: bitmap.len(), zeros: bitmap.lazy_unset_bits(), serial: 0 }
}

/// Returns a result: its record, and its bytes as frozen bytes. Notes in `met` set bits past the end and another size.
pub fn result(bitmap: &Bitmap, met: &mut Met) -> Outcome {
    let length = bitmap.len();
    let mut bytes = original::storage(bitmap).to_vec();
    if bytes.len() as u128 != frozen_size(length as u128) {
        met.note(Listed::ResultSize);
    }
    let past = |byte: usize| if 8 * byte >= length { 0xFF } else { 0xFFu8.checked_shl((length - 8 * byte) as u32).unwrap_or(0) };
    let mut set_past_end = false;
    for (i, byte) in bytes.iter_mut().enumerate().skip(length / 8) {
        set_past_end |= *byte & past(i) != 0;
        *byte &= !past(i);
    }
    if set_past_end {
        met.note(Listed::BitsPastEnd);
    }
    bytes.resize(frozen_size(length as u128) as usize, 0);
    Outcome { written: Some(bytes), ..Outcome::mask(bitmap) }
}

/// Returns the original's builder in the state of a record; none if the record's ones are not those of the finished words, since the
/// original counts them itself.
pub fn builder(b: Builder, buf: &[u8]) -> Option<BitmapBuilder> {
    let words = b.length / 64;
    let ones: u32 = buf[..8 * words].iter().map(|byte| byte.count_ones()).sum();
    if ones as usize != b.ones {
        return None;
    }
    let mut theirs = BitmapBuilder::with_capacity(b.length);
    theirs.extend_from_slice(buf, 0, 64 * words);
    theirs.reserve(b.length % 64);
    // SAFETY: the capacity was reserved, and the record is possible: less than 64 flags, none beyond.
    unsafe { theirs.push_word_with_len_unchecked(b.word, b.length % 64) };
    Some(theirs)
}

/// Returns a builder's record, and the bytes of its finished words; it is frozen to see them.
pub fn built(theirs: BitmapBuilder) -> Outcome {
    let (length, ones) = (theirs.len(), theirs.set_bits());
    let mut bytes = original::storage(&theirs.freeze()).to_vec();
    let mut word = [0; 8];
    let rest = bytes.split_off(8 * (length / 64));
    word[..rest.len()].copy_from_slice(&rest);
    let word = u64::from_le_bytes(word);
    let state = State::Builder(Builder { length, word, ones: ones - word.count_ones() as usize, serial: 0 });
    Outcome { record: Some(state), written: Some(bytes), ..Outcome::default() }
}

/// Calls `f` with a copy of the bytes at an address with this remainder by 8.
pub fn at_address<T>(bytes: &[u8], address: usize, f: impl FnOnce(&[u8]) -> T) -> T {
    let mut room = vec![0u64; bytes.len() / 8 + 2];
    // SAFETY: the room has 8 bytes for each word, one after another.
    let room = unsafe { std::slice::from_raw_parts_mut(room.as_mut_ptr().cast::<u8>(), 8 * room.len()) };
    let placed = &mut room[address..address + bytes.len()];
    placed.copy_from_slice(bytes);
    f(placed)
}
