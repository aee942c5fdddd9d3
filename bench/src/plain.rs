//! Plain word loops: what one would write by hand with no checks, as a measure of what the machine can do.
//!
//! A span's range is checked once, when it is made; the loops then read whole words, also past the last flag, and cut the last one.

/// A span with at least one more byte after its words.
#[derive(Clone, Copy)]
pub struct Span<'a> {
    bytes: &'a [u8],
    shift: usize,
    length: usize,
}

impl<'a> Span<'a> {
    /// Returns the span of `length` flags that starts at flag `start`. Panics if no byte follows its words.
    pub fn new(bytes: &'a [u8], start: usize, length: usize) -> Self {
        let bytes = &bytes[start / 8..];
        assert!(8 * length.div_ceil(64) < bytes.len());
        Span { bytes, shift: start % 8, length }
    }

    fn words(self) -> usize {
        self.length.div_ceil(64)
    }

    /// Returns word number i, below the number of words. If the span starts inside a byte, two loads one byte apart cover the 64 flags.
    #[inline(always)]
    fn word<const BYTE_START: bool>(self, i: usize) -> u64 {
        // SAFETY: `new` checked that the bytes go one byte past the last word.
        let load = |at: usize| unsafe { u64::from_le(self.bytes.as_ptr().add(at).cast::<u64>().read_unaligned()) };
        if BYTE_START {
            return load(8 * i);
        }
        load(8 * i) >> self.shift | load(8 * i + 1) << (8 - self.shift)
    }

    /// Returns the first word. Panics if the span is empty.
    pub fn first_word(self) -> u64 {
        assert!(self.length > 0);
        self.word::<false>(0)
    }

    /// Returns a mask of the bits of word number i that are flags.
    fn cut(self, i: usize) -> u64 {
        u64::MAX >> (64 - (self.length - 64 * i).min(64))
    }
}

fn put(out: &mut [u8], i: usize, word: u64) {
    out[8 * i..8 * i + 8].copy_from_slice(&word.to_le_bytes());
}

/// Writes the frozen bytes of `op` over three spans of equal lengths, all at byte starts if `BYTE_STARTS`.
#[inline(always)]
fn write<const BYTE_STARTS: bool>([a, b, c]: [Span; 3], out: &mut [u8], op: impl Fn(u64, u64, u64) -> u64) {
    let word = |i| op(a.word::<BYTE_STARTS>(i), b.word::<BYTE_STARTS>(i), c.word::<BYTE_STARTS>(i));
    for (i, place) in out[..8 * a.words()].chunks_exact_mut(8).enumerate() {
        place.copy_from_slice(&word(i).to_le_bytes());
    }
    if let Some(i) = a.words().checked_sub(1) {
        put(out, i, word(i) & a.cut(i));
    }
}

/// Writes the frozen bytes of `op` over three spans of equal lengths.
pub fn combine_three(spans: [Span; 3], out: &mut [u8], op: impl Fn(u64, u64, u64) -> u64) {
    assert!(spans.iter().all(|span| span.length == spans[0].length));
    if spans.iter().all(|span| span.shift == 0) { write::<true>(spans, out, op) } else { write::<false>(spans, out, op) }
}

/// Writes the frozen bytes of `op` over two spans of equal lengths.
pub fn combine(a: Span, b: Span, out: &mut [u8], op: impl Fn(u64, u64) -> u64) {
    combine_three([a, b, b], out, |x, y, _| op(x, y))
}

/// Writes the frozen bytes of `op` over one span.
pub fn map(a: Span, out: &mut [u8], op: impl Fn(u64) -> u64) {
    combine(a, a, out, |x, _| op(x))
}

#[inline(always)]
fn ones<const BYTE_STARTS: bool>(a: Span, b: Span, op: impl Fn(u64, u64) -> u64) -> usize {
    let Some(end) = a.words().checked_sub(1) else { return 0 };
    let word = |i| op(a.word::<BYTE_STARTS>(i), b.word::<BYTE_STARTS>(i));
    let before: u64 = (0..end).map(|i| u64::from(word(i).count_ones())).sum();
    before as usize + (word(end) & a.cut(end)).count_ones() as usize
}

/// Counts the ones of `op` over two spans of equal lengths.
pub fn count(a: Span, b: Span, op: impl Fn(u64, u64) -> u64) -> usize {
    assert_eq!(a.length, b.length);
    if a.shift == 0 && b.shift == 0 { ones::<true>(a, b, op) } else { ones::<false>(a, b, op) }
}

#[inline(always)]
fn equal<const BYTE_STARTS: bool>(a: Span, b: Span) -> bool {
    let Some(end) = a.words().checked_sub(1) else { return true };
    let differ = |i| a.word::<BYTE_STARTS>(i) ^ b.word::<BYTE_STARTS>(i);
    (0..end).all(|i| differ(i) == 0) && differ(end) & a.cut(end) == 0
}

/// Returns whether two spans have equal lengths and flags.
pub fn eq(a: Span, b: Span) -> bool {
    if a.length != b.length {
        return false;
    }
    if a.shift == 0 && b.shift == 0 { equal::<true>(a, b) } else { equal::<false>(a, b) }
}

/// Returns the position of set flag n: skips words by their counts, then clears the lower ones of the word that has it.
pub fn nth_set_bit(a: Span, mut n: usize) -> Option<usize> {
    for i in 0..a.words() {
        let mut word = a.word::<false>(i) & a.cut(i);
        let ones = word.count_ones() as usize;
        if n < ones {
            for _ in 0..n {
                word &= word - 1;
            }
            return Some(64 * i + word.trailing_zeros() as usize);
        }
        n -= ones;
    }
    None
}

/// Returns the first flag at or after `from`, else the first before it, that is set in one mask and not in the other; and the number of
/// windows of 32 flags up to the one that holds it, or of all. Reads word by word.
pub fn next_and_not(bytes: [&[u8]; 2], starts: [usize; 2], length: usize, from: usize) -> (Option<usize>, usize) {
    if let Some(zeros) = zeros_before(bytes, starts.map(|start| start + from), length - from) {
        return (Some(from + zeros), zeros / 32 + 1);
    }
    let passed = (length - from).div_ceil(32);
    match zeros_before(bytes, starts, from) {
        Some(zeros) => (Some(zeros), passed + zeros / 32 + 1),
        None => (None, passed + from.div_ceil(32)),
    }
}

/// Counts the flags before the first that is set in one mask and not in the other, if there is one among `length`.
fn zeros_before(bytes: [&[u8]; 2], starts: [usize; 2], length: usize) -> Option<usize> {
    let [a, b] = [0, 1].map(|i| Span::new(bytes[i], starts[i], length));
    for i in 0..a.words() {
        let mut word = a.word::<false>(i) & !b.word::<false>(i);
        if i + 1 == a.words() {
            word &= a.cut(i);
        }
        if word != 0 {
            return Some(64 * i + word.trailing_zeros() as usize);
        }
    }
    None
}
