//! The flags, counts and searches of a mask of a list, and its slices.

use poruwhina::{Bitmap, TrueIdxIter};

use crate::lists::{Random, packed, patterns, positions, runs, word, zeros};
use crate::{each_list, mask_at};

#[test]
fn flags_and_counts() {
    each_list(|flags, mask| {
        assert_eq!((mask.len(), mask.is_empty()), (flags.len(), flags.is_empty()));
        assert!(mask.iter().eq(flags.iter().copied()));
        assert!((0..flags.len() + 2).all(|i| mask.get(i) == flags.get(i).copied()));
        assert_eq!(mask.unset_bits(), zeros(flags));
        assert_eq!(mask.set_bits(), flags.len() - zeros(flags));
        assert_eq!(mask.leading_zeros(), flags.iter().take_while(|flag| !**flag).count());
        assert_eq!(mask.leading_ones(), flags.iter().take_while(|flag| **flag).count());
        assert_eq!(mask.trailing_zeros(), flags.iter().rev().take_while(|flag| !**flag).count());
        assert_eq!(mask.trailing_ones(), flags.iter().rev().take_while(|flag| **flag).count());
        assert_eq!(mask.num_edges(), flags.windows(2).filter(|pair| pair[0] != pair[1]).count());
        assert_eq!(mask.frozen_bytes().len(), flags.len().div_ceil(64) * 8);
        assert_eq!(mask.frozen_bytes()[..flags.len().div_ceil(8)], packed(flags, 0, false));
        assert_eq!(mask, &Bitmap::from(flags));
    });
}

#[test]
fn runs_positions_and_words() {
    each_list(|flags, mask| {
        assert!(mask.slices().eq(runs(flags)));
        assert!(mask.true_idx_iter().eq(positions(flags)));
        let chunks = mask.chunks();
        assert_eq!(chunks.remainder_len(), flags.len() % 64);
        assert_eq!(chunks.remainder(), word(flags, flags.len() / 64 * 64, 64));
        assert_eq!(chunks.len(), flags.len() / 64);
        assert!(chunks.eq((0..flags.len() / 64).map(|i| word(flags, 64 * i, 64))));
        assert!((0..flags.len() + 2).all(|i| u64::from(mask.get_u32(i)) == word(flags, i, 32)));
    });
}

#[test]
fn searches() {
    each_list(|flags, mask| {
        let ones = positions(flags);
        for n in [0, 1, 2, ones.len().saturating_sub(1), ones.len(), usize::MAX] {
            for at in [0, 1, flags.len() / 2, flags.len(), flags.len() + 1, usize::MAX] {
                let from = ones.iter().copied().filter(|&i| at <= i).nth(n);
                let below = ones.iter().rev().copied().filter(|&i| i < at).nth(n);
                assert_eq!(mask.nth_set_bit_idx(n, at), from, "{flags:?} {n} from {at}");
                assert_eq!(mask.nth_set_bit_idx_rev(n, at), below, "{flags:?} {n} below {at}");
            }
        }
    });
}

#[test]
fn iterators_keep_their_place() {
    each_list(|flags, mask| {
        let (mut own, mut plain) = (mask.iter(), flags.iter().copied());
        for n in [0, 3, 1, 40, 0, 200, 0] {
            assert_eq!((own.nth(n), own.len()), (plain.nth(n), plain.len()));
        }
        let mut rest = mask.iter();
        let (ones, then_zeros) = (rest.take_leading_ones(), rest.take_leading_zeros());
        let behind = flags.iter().skip(ones).take_while(|flag| !**flag).count();
        assert_eq!((ones, then_zeros), (mask.leading_ones(), behind));
        assert!(rest.eq(flags.iter().copied().skip(ones + behind)));
        let mut all = TrueIdxIter::new(flags.len(), None).expect("within the limit");
        assert!(all.by_ref().eq(0..flags.len()));
        assert_eq!(all.next(), None);
    });
}

#[test]
fn slices_of_slices() {
    let mut random = Random(5);
    for round in 0..400 {
        let length = random.below(700);
        let mut flags = patterns(length)[round % 4].clone();
        let mut mask = mask_at(&flags, round % 8);
        while !flags.is_empty() {
            if random.flag() {
                mask.unset_bits();
            }
            let offset = random.below(flags.len() / 4 + 1);
            let length = flags.len() - offset - random.below((flags.len() - offset) / 4 + 1);
            flags = flags[offset..offset + length].to_vec();
            let bytes = mask.as_slice().0.as_ptr_range();
            mask.slice(offset, length).expect("a piece of the mask");
            let own = mask.as_slice().0.as_ptr_range();
            assert!(bytes.start <= own.start && own.end == bytes.end, "a slice shares the bytes");
            assert!(mask.lazy_unset_bits().is_none_or(|count| count == zeros(&flags)));
            assert_eq!(mask.sliced(0, mask.len()).as_ref(), Ok(&mask));
            assert!(mask.iter().eq(flags.iter().copied()));
            assert_eq!(mask.clone().unset_bits(), zeros(&flags));
            flags.truncate(flags.len() - 1);
            mask.slice(0, flags.len()).expect("all but the last");
        }
    }
}

#[test]
fn the_count_of_a_slice_is_kept_where_few_flags_are_cut_off() {
    for (length, kept, forgotten) in [(100, 68, 67), (200, 160, 159)] {
        let mask: Bitmap = (0..length).map(|i| i % 3 == 0).collect();
        assert!(mask.lazy_unset_bits().is_some());
        assert_eq!(mask.sliced(0, kept).unwrap().lazy_unset_bits(), Some(kept - kept.div_ceil(3)));
        assert_eq!(mask.sliced(0, forgotten).unwrap().lazy_unset_bits(), None);
    }
}

#[test]
fn a_split_has_both_parts() {
    each_list(|flags, mask| {
        let at = flags.len() / 3;
        let (first, second) = mask.split_at(at).expect("a point in the mask");
        assert!(first.iter().eq(flags[..at].iter().copied()));
        assert!(second.iter().eq(flags[at..].iter().copied()));
    });
}

#[test]
fn threads_share_a_mask_and_its_count() {
    let flags = Random(3).flags(10_000);
    let mask = mask_at(&flags, 1);
    std::thread::scope(|scope| {
        for _ in 0..4 {
            scope.spawn(|| assert_eq!(mask.unset_bits(), zeros(&flags)));
            scope.spawn(|| assert_eq!(mask.clone().set_bits(), flags.len() - zeros(&flags)));
        }
    });
    assert_eq!(mask.lazy_unset_bits(), Some(zeros(&flags)));
}
