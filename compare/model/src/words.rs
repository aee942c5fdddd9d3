//! The calls on words. No check is made. A public function without a comment models the call of its name.

use crate::loops::WordOp;
use crate::{Answer, State, flag_at, flags_word, run_at_front, word_flags};

/// Returns the first eight bytes as a word, absent ones zero.
pub fn load_padded_le_u64(part: &[u8]) -> Answer {
    let flags: Vec<bool> = part.iter().take(8).flat_map(|&byte| word_flags(byte.into()).into_iter().take(8)).collect();
    Answer::word(flags_word(&flags))
}

/// Returns, for an offset of 1 to 63, the flags of `current` that start at `offset`, then the low flags of `next`; else `current`.
pub fn merge_reversed(current: u64, next: u64, offset: usize) -> Answer {
    if offset == 0 || offset >= 64 {
        return Answer::word(current);
    }
    let mut flags = word_flags(current).split_off(offset);
    flags.extend(&word_flags(next)[..offset]);
    Answer::word(flags_word(&flags))
}

/// Returns the position of set bit n, or how many are set if at most n are. A 32-bit word has its upper half zero.
pub fn nth_set_bit(word: u64, n: u64) -> Answer {
    let places: Vec<usize> = (0..64).filter(|j| word >> j & 1 == 1).collect();
    match usize::try_from(n).ok().and_then(|n| places.get(n)) {
        Some(&place) => Answer::values([place]),
        None => Answer::record(State::Ones(places.len())),
    }
}

/// Returns the first k flags of a word; all 64 if k is larger.
fn front(word: u64, k: usize) -> Vec<bool> {
    word_flags(word)[..k.min(64)].to_vec()
}

/// Returns the first 64 flags as a word; later ones are cut off.
fn cut(flags: Vec<bool>) -> Answer {
    Answer::word(flags_word(&flags[..flags.len().min(64)]))
}

/// Returns the 64 flags of the bytes that start at flag `bit`, zeros past their end.
pub fn word_from(bytes: &[u8], bit: usize) -> Answer {
    cut((0..64).map(|j| bit.checked_add(j).is_some_and(|at| at / 8 < bytes.len() && flag_at(bytes, at))).collect())
}

/// Returns the 64 flags of the bytes that start at byte `at`, zeros past their end.
pub fn byte_word(bytes: &[u8], at: usize) -> Answer {
    at.checked_mul(8).map_or(Answer::word(0), |bit| word_from(bytes, bit))
}

/// Returns flag `bit` of the bytes; 0 past their end.
pub fn flag(bytes: &[u8], bit: usize) -> Answer {
    Answer::values([usize::from(bit / 8 < bytes.len() && flag_at(bytes, bit))])
}

/// Writes a word's eight bytes at byte `at`; those that do not fit are left out.
pub fn store_at(out: &mut [u8], at: usize, word: u64) -> Answer {
    for (byte, &value) in out.iter_mut().skip(at).zip(&word.to_le_bytes()) {
        *byte = value;
    }
    Answer::values([])
}

/// Writes a word's eight bytes at byte `at`; writes nothing if not all of them fit.
pub fn store_whole(out: &mut [u8], at: usize, word: u64) -> Answer {
    match at as u128 + 8 <= out.len() as u128 {
        true => store_at(out, at, word),
        false => Answer::values([]),
    }
}

/// Returns the first k flags, zeros above.
pub fn low_flags(word: u64, k: usize) -> Answer {
    cut(front(word, k))
}

/// Returns the flags moved down by k; the first k are dropped, and zeros are above.
pub fn shr_or_zero(word: u64, k: usize) -> Answer {
    cut(word_flags(word).split_off(k.min(64)))
}

/// Returns the flags moved up by k, zeros below.
pub fn shl_or_zero(word: u64, k: usize) -> Answer {
    cut([vec![false; k.min(64)], word_flags(word)].concat())
}

/// Returns the first k flags of `a`, then those of `b`.
pub fn concat_low(a: u64, k: usize, b: u64) -> Answer {
    cut([front(a, k), word_flags(b)].concat())
}

/// Returns a word with its first n flags equal to `flag`, zeros above.
pub fn constant_flags(flag: bool, n: usize) -> Answer {
    cut(vec![flag; n.min(64)])
}

/// Counts the ones among the first k flags.
pub fn ones_below(word: u64, k: usize) -> Answer {
    Answer::values([front(word, k).iter().filter(|&&flag| flag).count()])
}

/// Returns whether no flag at or after k is set.
pub fn none_from(word: u64, k: usize) -> Answer {
    Answer::values([usize::from(!word_flags(word)[k.min(64)..].contains(&true))])
}

/// Counts the flags equal to `flag` at the start of the first k flags, before the first that differs.
pub fn leading_in_word(flag: bool, word: u64, k: usize) -> Answer {
    Answer::values([run_at_front(&front(word, k), flag)])
}

/// Counts the flags equal to `flag` at the end of the first k flags, after the last that differs.
pub fn trailing_in_word(flag: bool, word: u64, k: usize) -> Answer {
    Answer::values([run_at_front(front(word, k).iter().rev(), flag)])
}

/// Applies an operation to whole words, flag by flag.
pub fn combine_word(op: WordOp, words: [u64; 3]) -> Answer {
    let [first, second, third] = words.map(word_flags);
    cut((0..64).map(|j| op.flag(first[j], second[j], third[j])).collect())
}
