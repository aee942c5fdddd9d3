//! The plain functions that no type of the crate calls: those on words, the aligned split, the exact chunks, and a span split in two.

use poruwhina::calls::{self, Missing};

use crate::lists::{packed, patterns};

/// The flags that begin at `start`, as a word; those past the end are zeros.
fn word_at(flags: &[bool], start: usize) -> u64 {
    (0..64).filter(|&k| flags.get(start + k) == Some(&true)).map(|k| 1 << k).sum()
}

#[test]
fn words() {
    for length in [0, 1, 63, 64, 65, 130] {
        for flags in patterns(length) {
            let (first, second) = (word_at(&flags, 0), word_at(&flags, 64));
            assert_eq!(calls::load_padded_le_u64(&packed(&flags, 0, false)), first);
            for offset in 1..64 {
                let low = first >> offset | second << (64 - offset);
                assert_eq!(calls::merge_reversed(first, second, offset), low);
            }
            for offset in [0, 64, usize::MAX] {
                assert_eq!(calls::merge_reversed(first, second, offset), first);
            }
        }
    }
}

#[test]
fn set_bits() {
    for w in [0, 1, 0x2D, 1 << 63, 0x8000_0001_0000_0100, u64::MAX] {
        let places: Vec<u32> = (0..64).filter(|k| w >> k & 1 == 1).collect();
        for n in (0..66).chain([u64::MAX]) {
            let expected = places.get(n as usize).copied().ok_or(Missing { ones: places.len() as u32 });
            assert_eq!(calls::nth_set_bit_u64(w, n).position(), expected, "set bit {n} of {w:x}");
        }
        let low: Vec<u32> = places.into_iter().filter(|&place| place < 32).collect();
        for n in (0..34).chain([u32::MAX]) {
            let expected = low.get(n as usize).copied().ok_or(Missing { ones: low.len() as u32 });
            assert_eq!(calls::nth_set_bit_u32(w as u32, n).position(), expected, "set bit {n} of {:x}", w as u32);
        }
    }
}

/// The prefix, the whole words and the suffix of a split are the flags, whatever the address; the whole words begin at an address that
/// is divisible by 8.
#[test]
fn aligned_splits() {
    for length in [1, 7, 64, 65, 130] {
        for flags in patterns(length) {
            for start in 0..8 {
                let bytes = packed(&flags, start, true);
                for address in 0..8 {
                    let split = calls::aligned_new(&bytes, start, length, address);
                    let parts = [split.prefix_len, 64 * split.bulk_len, split.suffix_len];
                    assert_eq!((split.refusal, parts.iter().sum::<usize>()), (0, length));
                    assert_eq!(split.prefix, word_at(&flags[..parts[0]], 0));
                    assert_eq!(split.suffix, word_at(&flags, parts[0] + parts[1]));
                    if split.bulk_len > 0 {
                        assert_eq!((address + split.bulk_start) % 8, 0);
                        assert_eq!(8 * split.bulk_start, start + split.prefix_len);
                    }
                }
                assert_eq!(calls::aligned_new(&bytes, start, length, 8).refusal, 8);
            }
        }
    }
}

#[test]
fn exact_chunks_and_spans_in_two() {
    let bytes = [0xFF, 0xFF, 0xFF, 0xFF, 0xFF, 0xFF, 0xFF, 0xFF, 0x2D];
    assert_eq!(calls::chunks_new_exact(&bytes, 70), calls::chunks_new(&bytes, 0, 70));
    assert_eq!(calls::chunks_new_exact(&bytes, 73).refusal, 2);
    let two = calls::split_at_unchecked(&bytes, 3, 60, 20);
    assert_eq!((two.refusal, two.first_start, two.first_length), (0, 3, 20));
    assert_eq!((two.second_start, two.second_length), (23, 40));
    assert_eq!(calls::split_at_unchecked(&bytes, 3, 60, 61).refusal, 6);
}
