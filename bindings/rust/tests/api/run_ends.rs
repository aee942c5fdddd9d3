//! Run ends, compared with plain lists of flags.

use poruwhina::{Bitmap, Refusal, calls};

use crate::lists::Random;
use crate::{each_list, flags_of, mask_at};

/// Returns the value of the first run whose end is above `p`.
fn flag_at(ends: &[i32], values: &[bool], p: usize) -> bool {
    values[ends.iter().position(|&end| i64::from(end) > p as i64).expect("a run that ends above p")]
}

/// Returns the ends and the flags of the runs, flag by flag.
fn runs_of(flags: &[bool]) -> (Vec<i32>, Vec<bool>) {
    let (mut ends, mut values) = (Vec::new(), Vec::new());
    for (p, &flag) in flags.iter().enumerate() {
        if values.last() == Some(&flag) {
            ends.pop();
        } else {
            values.push(flag);
        }
        ends.push(p as i32 + 1);
    }
    (ends, values)
}

#[test]
fn every_list_is_written_and_restored() {
    each_list(|flags, mask| {
        let mask = mask.clone().with_serial(9);
        let (ends, values) = mask.run_ends();
        assert_eq!((ends.clone(), flags_of(&values)), runs_of(flags));
        assert_eq!((values.serial(), values.lazy_unset_bits()), (9, flags.is_empty().then_some(0)));
        let back = Bitmap::from_run_ends(&ends, &values, flags.len()).unwrap();
        assert_eq!((&back, back.serial(), back.lazy_unset_bits()), (&mask, 9, flags.is_empty().then_some(0)));
        assert!(back.as_slice().0.len() == flags.len().div_ceil(64) * 8);
        assert_eq!(ends.last().copied().unwrap_or(0), flags.len() as i32);
    });
}

#[test]
fn equal_masks_have_equal_runs() {
    let flags = Random(3).runs(1_000);
    let runs = mask_at(&flags, 0).run_ends();
    for start in 1..8 {
        assert_eq!(mask_at(&flags, start).run_ends(), runs);
    }
}

/// Ends that do not end a run of the mask, and ends above the length.
#[test]
fn more_runs_than_needed() {
    let mut random = Random(7);
    for _ in 0..2_000 {
        let many = 1 + random.below(200);
        let mut last = 0;
        let ends: Vec<i32> = (0..many)
            .map(|_| {
                last += 1 + random.below(70) as i32;
                last
            })
            .collect();
        let flags = random.flags(many);
        let values = mask_at(&flags, random.below(8));
        for length in [last as usize, random.below(last as usize + 1), 0] {
            let mask = Bitmap::from_run_ends(&ends, &values, length).unwrap();
            let wanted: Vec<bool> = (0..length).map(|p| flag_at(&ends, &flags, p)).collect();
            assert_eq!(flags_of(&mask), wanted);
            assert!(mask.run_ends().0.len() <= many);
        }
    }
}

#[test]
fn ends_that_break_the_rules() {
    let two = mask_at(&[true, false], 3);
    let broken = Err(Refusal::BrokenRunEnds);
    for ends in [[0, 5], [-1, 5], [i32::MIN, 5], [3, 3], [5, 3], [3, 4], [3, -5], [1, i32::MIN]] {
        assert_eq!(Bitmap::from_run_ends(&ends, &two, 5), broken, "{ends:?}");
    }
    assert_eq!(Bitmap::from_run_ends(&[5], &two, 5), broken);
    assert_eq!(Bitmap::from_run_ends(&[3, 4, 5], &two, 5), broken);
    assert_eq!(Bitmap::from_run_ends(&[], &Bitmap::new(), 1), broken);
    assert_eq!(Bitmap::from_run_ends(&[], &two, 0), broken);
    assert_eq!(Bitmap::from_run_ends(&[0, 0], &two, 0), broken);
}

#[test]
fn ends_that_keep_them() {
    let two = mask_at(&[true, false], 3).with_serial(4);
    for (ends, length, ones) in
        [([3, 5], 5, 3), ([3, i32::MAX], 5, 3), ([6, 9], 5, 5), ([i32::MAX - 1, i32::MAX], Bitmap::LIMIT, Bitmap::LIMIT)]
    {
        let mask = Bitmap::from_run_ends(&ends, &two, length).unwrap();
        assert_eq!((mask.len(), mask.set_bits(), mask.leading_ones(), mask.serial()), (length, ones, ones, 4));
    }
    for ends in [[1, 2], [7, i32::MAX]] {
        let none = Bitmap::from_run_ends(&ends, &two, 0).unwrap();
        assert_eq!((none.len(), none.lazy_unset_bits(), none.serial()), (0, Some(0), 4));
    }
}

#[test]
fn as_many_runs_as_the_longest_mask_has_flags() {
    let mask = Bitmap::try_new(vec![0x55; Bitmap::LIMIT / 8], Bitmap::LIMIT).unwrap();
    let (ends, values) = mask.run_ends();
    assert!(ends.iter().copied().eq(1..=Bitmap::LIMIT as i32));
    assert_eq!(values, mask);
    assert_eq!(Bitmap::from_run_ends(&ends, &values, Bitmap::LIMIT), Ok(mask));
    assert_eq!(Bitmap::from_run_ends(&ends, &values, Bitmap::LIMIT + 1), Err(Refusal::AboveLimit));
}

#[test]
fn both_outputs_or_neither() {
    let flags = Random(11).flags(400);
    let mask = mask_at(&flags, 5);
    let record = calls::Mask { start: 5, length: 400, zeros: 0, known: 0, serial: 0 };
    let (ends, _) = runs_of(&flags);
    let (runs, size) = (ends.len(), ends.len().div_ceil(64) * 8);
    for (places, room) in [(runs - 1, size), (runs, size - 1), (0, size), (runs, 0), (runs - 1, size - 1)] {
        let (mut places, mut room) = (vec![7; places], vec![0xA5; room]);
        let answer = calls::to_run_ends(record, mask.as_slice().0, &mut places, &mut room);
        assert_eq!((answer.refusal, answer.mask), (9, calls::Mask::default()));
        assert!(places.iter().all(|&place| place == 7) && room.iter().all(|&byte| byte == 0xA5));
    }
    let (mut places, mut room) = (vec![7; runs + 2], vec![0xA5; size + 2]);
    let answer = calls::to_run_ends(record, mask.as_slice().0, &mut places, &mut room);
    assert_eq!((answer.refusal, answer.mask.length), (0, runs));
    assert_eq!((&places[..runs], &places[runs..], &room[size..]), (&ends[..], &[7, 7][..], &[0xA5, 0xA5][..]));

    let mut places = [7; 300];
    assert_eq!(mask.run_ends_into(&mut places[..runs - 1]), Err(Refusal::OutputTooSmall));
    assert_eq!(places, [7; 300]);
    assert_eq!(mask.run_ends_into(&mut places[..runs + 1]).unwrap().len(), runs);
    assert_eq!((&places[..runs], places[runs]), (&ends[..], 7));
}
