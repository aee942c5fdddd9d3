//! Iterators from both ends, by turns, compared with iterators over lists; and the iterator that owns its mask.

use poruwhina::{Bitmap, TrueIdxIter};

use crate::lists::{Random, patterns, positions, runs};
use crate::{each_list, mask_at};

/// Compares an iterator with that over a list, asked from both ends as `random` has it, up to past the end.
fn by_turns<T: PartialEq + std::fmt::Debug>(
    random: &mut Random, own: &mut impl DoubleEndedIterator<Item = T>, plain: &mut impl DoubleEndedIterator<Item = T>,
) {
    let mut ended = 0;
    while ended < 3 {
        let (item, expected) = match random.below(8) {
            0..3 => (own.next(), plain.next()),
            3..6 => (own.next_back(), plain.next_back()),
            6 => {
                let n = random.below(4);
                (own.nth(n), plain.nth(n))
            }
            _ => {
                let n = random.below(4);
                (own.nth_back(n), plain.nth_back(n))
            }
        };
        assert_eq!(item, expected);
        ended += usize::from(item.is_none());
    }
}

#[test]
fn from_both_ends_by_turns() {
    let mut random = Random(31);
    each_list(|flags, mask| {
        by_turns(&mut random, &mut mask.iter(), &mut flags.iter().copied());
        by_turns(&mut random, &mut mask.clone().into_iter(), &mut flags.iter().copied());
        by_turns(&mut random, &mut mask.true_idx_iter(), &mut positions(flags).into_iter());
        by_turns(&mut random, &mut mask.slices(), &mut runs(flags).into_iter());
        let mut all = TrueIdxIter::new(flags.len(), None).expect("within the limit");
        by_turns(&mut random, &mut all, &mut (0..flags.len()));
    });
}

#[test]
fn longer_lists_by_turns() {
    let mut random = Random(32);
    for round in 0..400 {
        let flags = &patterns(random.below(900))[round % 4];
        let mask = mask_at(flags, round % 8);
        by_turns(&mut random, &mut mask.true_idx_iter(), &mut positions(flags).into_iter());
        by_turns(&mut random, &mut mask.slices(), &mut runs(flags).into_iter());
    }
}

#[test]
fn whole_from_the_back() {
    each_list(|flags, mask| {
        assert!(mask.iter().rev().eq(flags.iter().rev().copied()));
        assert!(mask.clone().into_iter().rev().eq(flags.iter().rev().copied()));
        assert!(mask.true_idx_iter().rev().eq(positions(flags).into_iter().rev()));
        assert!(mask.slices().rev().eq(runs(flags).into_iter().rev()));
        assert_eq!(mask.true_idx_iter().rfold(0, |sum, position| sum + position), positions(flags).iter().sum());
    });
}

/// `last` and `count` do not step through the whole iterator, and say what stepping says.
#[test]
#[allow(clippy::double_ended_iterator_last)]
fn the_last_and_how_many() {
    each_list(|flags, mask| {
        let (ones, runs) = (positions(flags), runs(flags));
        assert_eq!((mask.iter().last(), mask.iter().count()), (flags.last().copied(), flags.len()));
        assert_eq!((mask.clone().into_iter().last(), mask.clone().into_iter().count()), (flags.last().copied(), flags.len()));
        assert_eq!((mask.true_idx_iter().last(), mask.true_idx_iter().count()), (ones.last().copied(), ones.len()));
        assert_eq!((mask.slices().last(), mask.slices().count()), (runs.last().copied(), runs.len()));
        let mut begun = mask.true_idx_iter();
        begun.next();
        assert_eq!(begun.last(), ones.get(1..).and_then(|rest| rest.last()).copied());
    });
}

/// What remains after steps from the back is the mask up to there, also for the steps that are not of an iterator's trait.
#[test]
fn what_remains_between() {
    each_list(|flags, mask| {
        let cut = flags.len() / 3;
        let mut own = mask.iter();
        if cut > 0 {
            own.nth_back(cut - 1);
        }
        let left = &flags[..flags.len() - cut];
        assert_eq!((own.len(), own.size_hint()), (left.len(), (left.len(), Some(left.len()))));
        let ones = left.iter().take_while(|flag| **flag).count();
        assert_eq!(own.clone().take_leading_ones(), ones);
        assert!(own.eq(left.iter().copied()));

        let (mut iter, ones) = (mask.true_idx_iter(), positions(flags));
        let (first, last) = (iter.next(), iter.next_back());
        let between = ones.get(1..ones.len().max(2) - 1).unwrap_or(&[]);
        assert_eq!((first, last), (ones.first().copied(), ones.get(1..).and_then(|rest| rest.last()).copied()));
        let (least, most) = iter.size_hint();
        assert!(least <= between.len() && between.len() <= most.expect("a bound"));
        let mut out = vec![0; 200];
        let many = iter.next_chunk(&mut out);
        assert!(out[..many].iter().map(|&position| position as usize).eq(between.iter().copied()));
    });
}

#[test]
fn at_the_limit() {
    let limit = Bitmap::LIMIT;
    let widest = Bitmap::try_from_span(vec![0xFF; limit / 8 + 1], 7, limit).expect("the most flags");
    assert_eq!((widest.iter().next_back(), widest.slices().next_back()), (Some(true), Some((0, limit))));
    assert_eq!(widest.true_idx_iter().next_back(), Some(limit - 1));
    let mut flags = widest.iter();
    assert_eq!((flags.nth(limit - 2), flags.next_back(), flags.next_back(), flags.next()), (Some(true), Some(true), None, None));
    let mut ends = widest.with_flag(limit - 2, false).expect("a flag of the mask").into_iter();
    assert_eq!((ends.next_back(), ends.next_back(), ends.nth_back(usize::MAX), ends.next()), (Some(true), Some(false), None, None));
    let two = Bitmap::from_positions(limit, [limit - 3, limit - 1]).expect("two positions");
    let mut runs = two.slices();
    assert_eq!((runs.next(), runs.next_back(), runs.next_back(), runs.next()), (Some((limit - 3, 1)), Some((limit - 1, 1)), None, None));
}
