//! Positions of ones: the iterator keeps those that a call returned, and returns them one by one, in chunks and folded.

use poruwhina::{Bitmap, TrueIdxIter, calls};

use crate::lists::{Random, patterns, positions};
use crate::{each_list, mask_at};

/// A position that no mask has.
const NONE: u32 = u32::MAX;

/// Returns the next positions, at most `room`, and checks that the rest of the output is unchanged.
fn chunk(iter: &mut TrueIdxIter, room: usize) -> Vec<usize> {
    let mut out = vec![NONE; room];
    let many = iter.next_chunk(&mut out);
    assert!(out[many..].iter().all(|&entry| entry == NONE));
    out[..many].iter().map(|&position| position as usize).collect()
}

/// Returns all remaining positions, read in chunks of `room`, up to the first that is not full.
fn by_chunks(mut iter: TrueIdxIter, room: usize) -> Vec<usize> {
    let mut all = Vec::new();
    loop {
        let some = chunk(&mut iter, room);
        all.extend(&some);
        assert!(all.len() <= Bitmap::LIMIT, "more positions than a mask has flags");
        if some.len() < room {
            assert_eq!((chunk(&mut iter, room), iter.next()), (Vec::new(), None), "nothing behind the end");
            return all;
        }
    }
}

/// Checks that an iterator's remaining positions, read in several ways, are these.
fn holds(iter: &TrueIdxIter, left: &[usize]) {
    let (least, most) = iter.size_hint();
    assert!(least <= left.len() && left.len() <= most.expect("a bound"));
    assert!(iter.clone().eq(left.iter().copied()));
    assert_eq!(iter.clone().fold(Vec::new(), |seen, position| [seen, vec![position]].concat()), left);
    assert_eq!((iter.clone().count(), iter.clone().sum::<usize>()), (left.len(), left.iter().sum()));
    assert_eq!(iter.clone().next_back(), left.last().copied());
}

#[test]
fn in_chunks_of_any_size() {
    each_list(|flags, mask| {
        let ones = positions(flags);
        for room in [1, 2, 3, 7, 32, 63, 64, 65, 130] {
            assert_eq!(by_chunks(mask.true_idx_iter(), room), ones, "{flags:?} by {room}");
        }
        let all = TrueIdxIter::new(flags.len(), None).expect("within the limit");
        assert!(by_chunks(all, 1 + flags.len() % 9).into_iter().eq(0..flags.len()));
    });
}

#[test]
fn one_by_one_and_in_chunks_by_turns() {
    let mut random = Random(11);
    for round in 0..600 {
        let flags = &patterns(random.below(700))[round % 4];
        let mask = mask_at(flags, round % 8);
        let (ones, mut iter) = (positions(flags), mask.true_idx_iter());
        let mut given = 0;
        while given < ones.len() {
            if random.flag() {
                assert_eq!(iter.next(), Some(ones[given]));
                given += 1;
                continue;
            }
            let room = [0, 1, 5, 63, 64, 65, 150][random.below(7)];
            let some = chunk(&mut iter, room);
            assert_eq!(some, ones[given..ones.len().min(given + room)]);
            given += some.len();
        }
        assert_eq!((iter.next(), iter.next(), chunk(&mut iter, 3)), (None, None, vec![]));
    }
}

#[test]
fn a_clone_goes_on_from_the_same_place() {
    for length in [0, 1, 63, 64, 65, 127, 128, 129, 200, 300] {
        for flags in patterns(length) {
            let mask = mask_at(&flags, length % 8);
            let ones = positions(&flags);
            let mut iter = mask.true_idx_iter();
            for given in 0..=ones.len() {
                if given % 8 < 2 || ones.len() - given < 3 {
                    holds(&iter, &ones[given..]);
                    assert_eq!(by_chunks(iter.clone(), 5), ones[given..]);
                }
                assert_eq!(iter.next(), ones.get(given).copied());
            }
            holds(&iter, &[]);
        }
    }
}

#[test]
fn at_the_limit() {
    let limit = Bitmap::LIMIT;
    let bytes = vec![0xFF; 2 * limit / 8];
    let widest = Bitmap::try_from_span(bytes, limit, limit).expect("the most flags");
    assert!(widest.true_idx_iter().eq(0..limit));
    let mut out = vec![NONE; limit + 1];
    assert_eq!(widest.true_idx_iter().next_chunk(&mut out), limit);
    assert!(out[..limit].iter().enumerate().all(|(i, &position)| i == position as usize));
    assert_eq!(out[limit], NONE);
}

/// Compares the plain call, from every place, with as many calls for one position.
#[test]
fn by_the_plain_calls() {
    for flags in [1, 17, 64, 70, 130].into_iter().flat_map(patterns) {
        let mask = mask_at(&flags, flags.len() % 8);
        let (bytes, start, length) = mask.as_slice();
        for (place, masked) in (0..=length).flat_map(|place| [(place, 0), (place, 1)]) {
            let cursor = calls::Cursor { start, length, place, masked };
            for room in [0, 1, 4, 64, 131] {
                let mut out = vec![NONE; room];
                let answer = calls::true_idx_next_chunk(cursor, bytes, &mut out);
                let (mut single, mut behind) = (Vec::new(), cursor);
                for _ in 0..room {
                    let step = calls::true_idx_next(behind, bytes);
                    behind = step.cursor;
                    single.extend(step.found.then_some(step.value as u32));
                }
                assert_eq!(out[..answer.count], single);
                assert!(out[answer.count..].iter().all(|&entry| entry == NONE));
                let count = single.len();
                assert_eq!(answer, calls::Step { refusal: 0, found: true, value: 0, count, cursor: behind });
            }
        }
    }
}

#[test]
fn refused_it_writes_nothing() {
    let above = Bitmap::LIMIT + 1;
    let (outside, far) = (calls::Cursor { start: 0, length: 9, place: 0, masked: 1 }, usize::MAX);
    let refused = [
        (calls::Cursor { length: above, place: far, ..outside }, 1),
        (calls::Cursor { start: above, masked: 0, ..outside }, 1),
        (calls::Cursor { place: 10, ..outside }, 2),
        (calls::Cursor { length: 8, place: 9, ..outside }, 6),
        (calls::Cursor { place: 10, masked: 0, ..outside }, 6),
    ];
    for (cursor, refusal) in refused {
        for room in 0..3 {
            let mut out = vec![NONE; room];
            let answer = calls::true_idx_next_chunk(cursor, &[0xFF], &mut out);
            assert_eq!(answer, calls::Step { refusal, found: false, value: 0, count: 0, cursor });
            assert!(out.iter().all(|&entry| entry == NONE));
        }
    }
}
