//! The calls of the library as the reference defines them, flag by flag over lists of flags.
//!
//! Nothing here is taken from the library: no word is shifted, no count is kept in addition to the flags, and each sum is taken in 128
//! bits. It is slow and meant to be read next to the reference. A public function without a comment models the call of its name.

pub mod activity;
pub mod builder;
mod checks;
pub mod combine;
pub mod cursors;
pub mod dispatch;
pub mod grids;
pub mod loops;
pub mod mask;
pub mod next;
pub mod run_ends;
pub mod spans;
pub mod superseding;
pub mod words;

use checks::Checks;

/// The most flags that a start or a length may name.
pub const LIMIT: usize = 4_194_304;

/// A mask: a span, its zero count if known, and the serial of the revocation list that it was drawn up under.
#[derive(Clone, Copy, Debug, PartialEq, Eq, Default)]
pub struct Mask {
    pub start: usize,
    pub length: usize,
    pub zeros: Option<usize>,
    pub serial: u32,
}

/// A builder: its length, the word in progress, the ones counted in finished words, and its serial.
#[derive(Clone, Copy, Debug, PartialEq, Eq, Default)]
pub struct Builder {
    pub length: usize,
    pub word: u64,
    pub ones: usize,
    pub serial: u32,
}

/// A cursor: a span and the next place. Only the cursor over positions may be without a mask.
#[derive(Clone, Copy, Debug, PartialEq, Eq)]
pub struct Cursor {
    pub start: usize,
    pub length: usize,
    pub place: usize,
    pub masked: bool,
}

/// A span of lent bytes.
#[derive(Clone, Copy)]
pub struct Span<'a> {
    pub bytes: &'a [u8],
    pub start: usize,
    pub length: usize,
}

impl Span<'_> {
    /// Returns the span's flags. The span must lie in its bytes.
    fn flags(&self) -> Vec<bool> {
        (self.start..self.start + self.length).map(|j| flag_at(self.bytes, j)).collect()
    }
}

/// A mask with the bytes lent for it.
#[derive(Clone, Copy)]
pub struct Lent<'a> {
    pub mask: Mask,
    pub bytes: &'a [u8],
}

impl<'a> Lent<'a> {
    /// Returns the span that the mask covers.
    pub fn span(&self) -> Span<'a> {
        Span { bytes: self.bytes, start: self.mask.start, length: self.mask.length }
    }

    /// Returns the mask's flags. The mask must lie in its bytes.
    pub fn flags(&self) -> Vec<bool> {
        self.span().flags()
    }
}

/// The record that a call returns.
#[derive(Clone, Copy, Debug, PartialEq, Eq)]
pub enum State {
    None,
    Mask(Mask),
    Builder(Builder),
    Cursor(Cursor),
    /// The number of set flags of a word that has no set flag n.
    Ones(usize),
}

/// The answer of a call: the number of the check that refuses it, or 0; its values, none if it finds nothing; and its record.
#[derive(Clone, Debug, PartialEq, Eq)]
pub struct Answer {
    pub refusal: u8,
    pub values: Vec<u64>,
    pub state: State,
}

impl Answer {
    /// Returns the answer of a call that is not refused.
    pub fn given(values: impl IntoIterator<Item = usize>, state: State) -> Self {
        Self { refusal: 0, values: values.into_iter().map(|value| value as u64).collect(), state }
    }

    /// Returns an accepted answer with no record.
    pub fn values(values: impl IntoIterator<Item = usize>) -> Self {
        Self::given(values, State::None)
    }

    /// Returns an accepted answer whose only value is a word.
    pub fn word(word: u64) -> Self {
        Self { refusal: 0, values: vec![word], state: State::None }
    }

    /// Returns an accepted answer with no values.
    pub fn record(state: State) -> Self {
        Self::given([], state)
    }
}

/// Returns flag `j` of a buffer: bit j mod 8 of byte j div 8, least significant first.
pub fn flag_at(bytes: &[u8], j: usize) -> bool {
    bytes[j / 8] >> (j % 8) & 1 == 1
}

/// Returns the 64 flags of a word, bit 0 first.
pub fn word_flags(word: u64) -> Vec<bool> {
    (0..64).map(|j| word >> j & 1 == 1).collect()
}

/// Returns up to 64 flags as a word, zero above them.
pub fn flags_word(flags: &[bool]) -> u64 {
    assert!(flags.len() <= 64);
    flags.iter().enumerate().map(|(j, &flag)| u64::from(flag) << j).sum()
}

/// Counts the zeros among the flags.
pub fn zeros(flags: &[bool]) -> usize {
    flags.iter().filter(|&&flag| !flag).count()
}

/// Counts the flags equal to `flag` before the first that differs.
fn run_at_front<'a>(flags: impl IntoIterator<Item = &'a bool>, flag: bool) -> usize {
    flags.into_iter().take_while(|&&other| other == flag).count()
}

/// Returns how many bytes the frozen bytes of `length` flags take.
pub fn frozen_size(length: u128) -> u128 {
    8 * length.div_ceil(64)
}

/// Returns the frozen bytes of a list of flags.
pub fn frozen(flags: &[bool]) -> Vec<u8> {
    flags.chunks(64).flat_map(|word| flags_word(word).to_le_bytes()).collect()
}

/// Writes the frozen bytes at the start of the output; later bytes stay.
fn write_frozen(flags: &[bool], out: &mut [u8]) {
    let bytes = frozen(flags);
    out[..bytes.len()].copy_from_slice(&bytes);
}

/// Writes flags and returns the mask over them: its start is 0, its count unknown, or 0 if there are none, its serial that of the mask that
/// they are from.
fn written(flags: &[bool], serial: u32, out: &mut [u8]) -> Answer {
    write_frozen(flags, out);
    let zeros = if flags.is_empty() { Some(0) } else { None };
    Answer::record(State::Mask(Mask { start: 0, length: flags.len(), zeros, serial }))
}
