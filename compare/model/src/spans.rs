//! The calls over bare spans. A public function without a comment models the call of its name.

use crate::{Answer, Checks, Cursor, Span, State, flags_word, run_at_front, zeros};

/// The five counts, in the order of the interface's numbers.
#[derive(Clone, Copy, Debug, PartialEq, Eq)]
pub enum Count {
    Zeros,
    LeadingZeros,
    LeadingOnes,
    TrailingZeros,
    TrailingOnes,
}

/// Makes checks 1, 2 and 8 and returns the values that `given` makes of the flags. If the length is 0, returns `empty` before any check.
fn addressed(span: Span, address: usize, empty: &[usize], given: impl FnOnce(Vec<bool>) -> Vec<u64>) -> Answer {
    if span.length == 0 {
        return Answer::values(empty.iter().copied());
    }
    Checks::default().span(span).check(8, address <= 7).answer(State::None, || Answer {
        refusal: 0,
        values: given(span.flags()),
        state: State::None,
    })
}

/// Returns the prefix and its length, the first byte and number of the whole words, the suffix and its length. A span that fits one
/// word from its first byte is all prefix; else the words begin at the first byte at or after the start whose address is a multiple of 8.
pub fn aligned_new(span: Span, address: usize) -> Answer {
    addressed(span, address, &[0; 6], |flags| {
        if span.start % 8 + span.length <= 64 {
            return vec![flags_word(&flags), span.length as u64, 0, 0, 0, 0];
        }
        let first = (span.start.div_ceil(8)..).find(|byte| (address + byte).is_multiple_of(8)).unwrap();
        let (prefix, rest) = flags.split_at(8 * first - span.start);
        let words = rest.len() / 64;
        let suffix = &rest[64 * words..];
        vec![flags_word(prefix), prefix.len() as u64, first as u64, words as u64, flags_word(suffix), suffix.len() as u64]
    })
}

/// Returns one of the five counts of a span; it does not depend on the address.
pub fn count(what: Count, span: Span, address: usize) -> Answer {
    addressed(span, address, &[0], |flags| {
        let number = match what {
            Count::Zeros => zeros(&flags),
            Count::LeadingZeros => run_at_front(&flags, false),
            Count::LeadingOnes => run_at_front(&flags, true),
            Count::TrailingZeros => run_at_front(flags.iter().rev(), false),
            Count::TrailingOnes => run_at_front(flags.iter().rev(), true),
        };
        vec![number as u64]
    })
}

/// Returns a cursor over the span's words.
pub fn chunks_new(span: Span) -> Answer {
    let cursor = Cursor { start: span.start, length: span.length, place: 0, masked: true };
    Checks::default().span(span).answer(State::None, || Answer::record(State::Cursor(cursor)))
}

pub fn chunks_next(cursor: Cursor, bytes: &[u8]) -> Answer {
    let same = State::Cursor(cursor);
    Checks::default().cursor(cursor, bytes).answer(same, || {
        if cursor.place >= cursor.length / 64 {
            return Answer::record(same);
        }
        let word = Span { bytes, start: cursor.start + 64 * cursor.place, length: 64 }.flags();
        let next = Cursor { place: cursor.place + 1, ..cursor };
        Answer { state: State::Cursor(next), ..Answer::word(flags_word(&word)) }
    })
}

/// Returns the last length mod 64 flags as a word, and their number.
pub fn chunks_remainder(cursor: Cursor, bytes: &[u8]) -> Answer {
    Checks::default().cursor(cursor, bytes).answer(State::Cursor(cursor), || {
        let whole = cursor.length / 64 * 64;
        let rest = Span { bytes, start: cursor.start + whole, length: cursor.length - whole }.flags();
        Answer { refusal: 0, values: vec![flags_word(&rest), rest.len() as u64], state: State::None }
    })
}

/// Returns the spans before flag `at` and from it to the end, each as its start and length.
pub fn split_at_unchecked(span: Span, at: usize) -> Answer {
    let second = span.start as u128 + at as u128;
    let checks = Checks::default().span(span).limited(&[second]).check(6, at <= span.length);
    checks.answer(State::None, || Answer::values([span.start, at, span.start + at, span.length - at]))
}

/// Returns the 32 flags that start at `index`, zeros past the end.
pub fn get_u32(span: Span, index: usize) -> Answer {
    Checks::default().span(span).answer(State::None, || {
        let from = index.min(span.length);
        let window = Span { start: span.start + from, length: (span.length - from).min(32), ..span };
        Answer::word(flags_word(&window.flags()))
    })
}

/// Makes checks 1 and 2 and returns the position that `find` picks among those of the set flags, if any.
fn search(span: Span, find: impl FnOnce(&mut dyn DoubleEndedIterator<Item = usize>) -> Option<usize>) -> Answer {
    Checks::default().span(span).answer(State::None, || {
        let flags = span.flags();
        Answer::values(find(&mut (0..flags.len()).filter(|&j| flags[j])))
    })
}

/// Returns the position of set flag n, counted from 0, among those at or after `from`.
pub fn nth_set_bit_idx(span: Span, n: usize, from: usize) -> Answer {
    search(span, |ones| ones.filter(|&j| j >= from).nth(n))
}

/// Returns the position of set flag n, counted from 0 and downward, among those below `end`.
pub fn nth_set_bit_idx_rev(span: Span, n: usize, end: usize) -> Answer {
    search(span, |ones| ones.rev().filter(|&j| j < end).nth(n))
}
