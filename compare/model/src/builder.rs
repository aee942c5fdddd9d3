//! The builder's calls. Each append makes checks 1, 4 and 9 in addition to its own. A public function without a comment models the call
//! of its name.

use crate::{Answer, Builder, Checks, Lent, Mask, Span, State, flag_at, flags_word, word_flags};

pub fn new() -> Answer {
    Answer::record(State::Builder(Builder::default()))
}

/// Appends `many` flags: whole words go to the buffer, the rest stays in the word in progress.
fn append(checks: Checks, b: Builder, buf: &mut [u8], many: u128, flags: impl FnOnce() -> Vec<bool>) -> Answer {
    let length = b.length as u128 + many;
    let checks = checks.builder(b, buf).limited(&[length]).holds(buf, length);
    checks.answer(State::Builder(b), || {
        let mut pending = word_flags(b.word);
        pending.truncate(b.length % 64);
        pending.extend(flags());
        let words = pending.chunks_exact(64);
        let word = flags_word(words.remainder());
        let mut ones = b.ones;
        for (i, flags) in words.enumerate() {
            let at = 8 * (b.length / 64 + i);
            buf[at..at + 8].copy_from_slice(&flags_word(flags).to_le_bytes());
            ones += flags.iter().filter(|&&flag| flag).count();
        }
        Answer::record(State::Builder(Builder { length: length as usize, word, ones, serial: b.serial }))
    })
}

pub fn push(b: Builder, buf: &mut [u8], flag: bool) -> Answer {
    append(Checks::default(), b, buf, 1, || vec![flag])
}

pub fn extend_constant(b: Builder, buf: &mut [u8], n: usize, flag: bool) -> Answer {
    append(Checks::default().limited(&[n as u128]), b, buf, n as u128, || vec![flag; n])
}

pub fn push_word_with_len_unchecked(b: Builder, buf: &mut [u8], word: u64, n: usize) -> Answer {
    let fits = n <= 64 && word_flags(word)[n..].iter().all(|&flag| !flag);
    let checks = Checks::default().limited(&[n as u128]).check(6, fits);
    append(checks, b, buf, n as u128, || word_flags(word)[..n].to_vec())
}

pub fn extend_from_slice(b: Builder, buf: &mut [u8], span: Span) -> Answer {
    append(Checks::default().span(span), b, buf, span.length as u128, || span.flags())
}

pub fn extend_each_repeated_from_slice_unchecked(b: Builder, buf: &mut [u8], span: Span, repeats: usize) -> Answer {
    let many = span.length as u128 * repeats as u128;
    append(Checks::default().span(span), b, buf, many, || {
        span.flags().into_iter().flat_map(|flag| std::iter::repeat_n(flag, repeats)).collect()
    })
}

pub fn subslice_extend_from_bitmap(b: Builder, buf: &mut [u8], lent: Lent, start: usize, n: usize) -> Answer {
    let (from, many) = (start as u128, n as u128);
    let checks = Checks::default().mask(lent).limited(&[from, many]).check(6, from + many <= lent.mask.length as u128);
    append(checks, b, buf, many, || Span { start: lent.mask.start + start, length: n, ..lent.span() }.flags())
}

/// Returns the span's flag at an index; 0 at or past its length.
fn gathered(span: Span, index: u32) -> bool {
    (index as usize) < span.length && flag_at(span.bytes, span.start + index as usize)
}

pub fn gather_extend_from_slice(b: Builder, buf: &mut [u8], span: Span, idxs: &[u32]) -> Answer {
    let inside = idxs.iter().all(|&index| (index as usize) < span.length);
    let checks = Checks::default().span(span).check(6, inside);
    append(checks, b, buf, idxs.len() as u128, || idxs.iter().map(|&index| gathered(span, index)).collect())
}

pub fn opt_gather_extend_from_slice(b: Builder, buf: &mut [u8], span: Span, idxs: &[u32]) -> Answer {
    let checks = Checks::default().span(span);
    append(checks, b, buf, idxs.len() as u128, || idxs.iter().map(|&index| gathered(span, index)).collect())
}

/// Writes the word in progress after the finished words; `given` takes the mask and whether all flags are set, and returns the record.
fn finish(b: Builder, buf: &mut [u8], given: impl FnOnce(Mask, bool) -> State) -> Answer {
    let checks = Checks::default().builder(b, buf).holds(buf, b.length as u128);
    checks.answer(State::None, || {
        if !b.length.is_multiple_of(64) {
            let at = 8 * (b.length / 64);
            buf[at..at + 8].copy_from_slice(&b.word.to_le_bytes());
        }
        let ones = b.ones + word_flags(b.word).iter().filter(|&&flag| flag).count();
        let mask = Mask { start: 0, length: b.length, zeros: Some(b.length - ones), serial: b.serial };
        Answer::record(given(mask, ones == b.length))
    })
}

pub fn freeze(b: Builder, buf: &mut [u8]) -> Answer {
    finish(b, buf, |mask, _| State::Mask(mask))
}

/// Freezes the builder; returns no mask if and only if all flags are set.
pub fn into_opt_validity(b: Builder, buf: &mut [u8]) -> Answer {
    finish(b, buf, |mask, all| if all { State::None } else { State::Mask(mask) })
}
