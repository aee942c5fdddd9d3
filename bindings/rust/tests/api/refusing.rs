//! Each refusal, the limit of 4,194,304 flags from both sides, and the fact that nothing has changed after a refusal.

use poruwhina::{Bitmap, BitmapBuilder, Grid, Permission, Refusal, TrueIdxIter, UnknownNumber, calls, may_reassign};

use crate::flags_of;

#[test]
fn from_the_types() {
    let mask = Bitmap::from([true, false, true]);
    let other = Bitmap::from([true]);
    let above = Bitmap::LIMIT + 1;

    assert_eq!(Bitmap::new_zeroed(above), Err(Refusal::AboveLimit));
    assert_eq!(Bitmap::new_zeroed(usize::MAX), Err(Refusal::AboveLimit));
    assert_eq!(Bitmap::try_from_span([0], 0, above), Err(Refusal::AboveLimit));
    assert_eq!(Bitmap::try_from_span([0], above, 0), Err(Refusal::OutsideBytes));
    assert_eq!(Bitmap::try_from_span([0], usize::MAX, above), Err(Refusal::AboveLimit));
    assert_eq!(mask.sliced(usize::MAX, 2), Err(Refusal::AboveLimit));
    assert_eq!(TrueIdxIter::new(above, None).err(), Some(Refusal::AboveLimit));

    assert_eq!(Bitmap::try_new([], 1), Err(Refusal::OutsideBytes));
    assert_eq!(Bitmap::try_from_span([0], 2, 7), Err(Refusal::OutsideBytes));

    assert_eq!(Bitmap::try_from_counted_span([0], 0, above, 0), Err(Refusal::AboveLimit));
    assert_eq!(Bitmap::try_from_counted_span([0], 2, 7, 7), Err(Refusal::OutsideBytes));
    assert_eq!(Bitmap::try_from_counted_span([0], 0, 0, 1), Err(Refusal::FalseCount));

    let unequal = Err(Refusal::UnequalLengths);
    for refused in [mask.and(&other), mask.and_not(&other), mask.or(&other), mask.or_not(&other), mask.xor(&other)] {
        assert_eq!(refused, unequal);
    }
    assert_eq!(other.and(&mask), unequal);
    assert_eq!(mask.select(&other, &mask), unequal);
    assert_eq!(mask.select(&mask, &other), unequal);
    assert_eq!(mask.select_constant(&other, true), unequal);
    assert_eq!(mask.num_intersections_with(&other), Err(Refusal::UnequalLengths));
    assert_eq!(may_reassign(Permission::Mask(&mask), Some(&other), 0), Err(Refusal::UnequalLengths));
    assert_eq!(TrueIdxIter::new(2, Some(&mask)).err(), Some(Refusal::UnequalLengths));

    assert_eq!(mask.sliced(2, 2), Err(Refusal::OutsideMask));
    assert_eq!(mask.split_at(4), Err(Refusal::OutsideMask));
    assert_eq!(may_reassign(Permission::Mask(&mask), None, 3), Err(Refusal::OutsideMask));
    assert_eq!(may_reassign(Permission::Mask(&mask), None, usize::MAX), Err(Refusal::OutsideMask));

    assert_eq!(Grid::try_new(mask.clone(), 2, 2), Err(Refusal::NotAGrid));
    let grid = Grid::try_new(mask, 3, 1).unwrap();
    assert_eq!((grid.row(3), grid.column(1)), (Err(Refusal::OutsideMask), Err(Refusal::OutsideMask)));
    assert_eq!(grid.row_zeros_into(&mut [0; 2]), Err(Refusal::OutputTooSmall));

    let values = Bitmap::from([true, false]);
    assert_eq!(Bitmap::from_run_ends(&[1, 3], &values, above), Err(Refusal::AboveLimit));
    assert_eq!(Bitmap::from_run_ends(&[3, 1], &values, usize::MAX), Err(Refusal::AboveLimit));
    assert_eq!(Bitmap::from_run_ends(&[1, 3], &values, 4), Err(Refusal::BrokenRunEnds));
    assert_eq!(values.run_ends_into(&mut [0; 1]), Err(Refusal::OutputTooSmall));
}

#[test]
fn a_refused_call_changes_nothing() {
    let mut mask = Bitmap::from([true, false, true]);
    assert_eq!(mask.slice(1, 3), Err(Refusal::OutsideMask));
    assert_eq!((flags_of(&mask), mask.lazy_unset_bits()), (vec![true, false, true], Some(1)));

    let mut builder = BitmapBuilder::new();
    builder.extend_from_bitmap(&mask).unwrap();
    let refused = [
        (builder.extend_constant(Bitmap::LIMIT - 2, true), Refusal::AboveLimit),
        (builder.extend_constant(usize::MAX, true), Refusal::AboveLimit),
        (builder.extend_each_repeated_from_slice(&[1], 0, 8, usize::MAX), Refusal::AboveLimit),
        (builder.extend_from_slice(&[0xFF; 100], usize::MAX, 8), Refusal::AboveLimit),
        (builder.extend_from_slice(&[0xFF; 100], 1, 800), Refusal::OutsideBytes),
        (builder.push_word_with_len(0, 65), Refusal::OutsideMask),
        (builder.push_word_with_len(2, 1), Refusal::OutsideMask),
        (builder.subslice_extend_from_bitmap(&mask, 1, 3), Refusal::OutsideMask),
        (builder.gather_extend_from_slice(&[0xFF; 9], 0, 70, &[0, 69, 70]), Refusal::OutsideMask),
        (builder.opt_gather_extend_from_slice(&[0xFF; 9], 0, 73, &[0]), Refusal::OutsideBytes),
    ];
    for (answer, refusal) in refused {
        assert_eq!(answer, Err(refusal));
    }
    let frozen = builder.freeze();
    assert_eq!(frozen, mask);
    assert_eq!(frozen.as_slice().0, [0b101, 0, 0, 0, 0, 0, 0, 0]);
}

/// Refusals that the types never return; the plain calls return them for records that a caller made up.
#[test]
fn from_the_plain_calls() {
    let mask = calls::Mask { start: 0, length: 100, zeros: 101, known: 1, serial: 0 };
    let bytes = [0xFF; 13];
    let builder = calls::Builder { length: 1, word: 2, ones: 0 };
    let small = calls::Mask { start: 0, length: 1, zeros: 0, known: 0, serial: 0 };
    let numbers = [
        (calls::unset_bits(mask, &bytes).refusal, Refusal::FalseCount),
        (calls::push(builder, &mut [0; 8], true).refusal, Refusal::ImpossibleBuilder),
        (calls::slice(calls::Mask { zeros: 31, ..mask }, &[0; 13], 0, 68).refusal, Refusal::FalseCount),
        (calls::count_zeros(&bytes, 0, 1, 8).refusal, Refusal::AddressRemainder),
        (calls::not(small, &bytes, &mut [0; 7]).refusal, Refusal::OutputTooSmall),
        (calls::grid_transpose(small, &bytes, 1, 2, &mut [0; 7]).refusal, Refusal::NotAGrid),
        (calls::grid_row_zeros(small, &bytes, 1, 1, &mut []).refusal, Refusal::OutputTooSmall),
        (calls::from_run_ends(&[1], calls::Mask { zeros: 1, known: 1, ..small }, &bytes, 1, &mut []).refusal, Refusal::FalseCount),
        (calls::from_run_ends(&[0], calls::Mask { zeros: 1, known: 1, ..small }, &bytes, 1, &mut []).refusal, Refusal::BrokenRunEnds),
        (calls::from_run_ends(&[1], small, &bytes, 1, &mut [0; 7]).refusal, Refusal::OutputTooSmall),
        (calls::to_run_ends(small, &bytes, &mut [0], &mut [0; 7]).refusal, Refusal::OutputTooSmall),
    ];
    for (number, refusal) in numbers {
        assert_eq!(Refusal::from_number(number), Some(refusal));
    }
}

/// A refused call returns the record that was passed, with every field unchanged, also those that it does not read.
#[test]
fn the_record_as_it_came() {
    let odd = calls::Mask { start: 0, length: 9, zeros: 77, known: 0, serial: 0 };
    for came in [odd, calls::Mask { zeros: 3, known: 200, ..odd }, calls::Mask { zeros: 10, known: 255, ..odd }] {
        let cut = calls::slice(came, &[0xFF], 0, 1);
        assert_eq!((cut.refusal, cut.mask), (2, came));
        let row = calls::grid_row(came, &[0xFF], 3, 3, 1);
        assert_eq!((row.refusal, row.mask), (2, came));
        let counted = calls::unset_bits(came, &[0xFF]);
        assert_eq!((counted.refusal, counted.zeros, counted.mask), (2, 0, came));
    }
    let builder = calls::Builder { length: 1, word: u64::MAX, ones: 5 };
    assert_eq!(calls::push(builder, &mut [0; 8], true).builder, builder);
    let cursor = calls::Cursor { start: 3, length: 6, place: 7, masked: 9 };
    for step in [calls::iter_next(cursor, &[0xFF]), calls::chunks_remainder(cursor, &[0xFF]), calls::true_idx_next(cursor, &[0xFF])] {
        assert_eq!((step.refusal, step.cursor), (2, cursor));
    }
}

#[test]
fn numbers_and_words() {
    let known: Vec<u8> = (0..=255).filter(|&number| Refusal::from_number(number).is_some()).collect();
    assert_eq!(known, [1, 2, 3, 4, 5, 6, 7, 8, 9, 12, 13, 14, 16]);
    for number in known {
        let refusal = Refusal::from_number(number).unwrap();
        assert_eq!((refusal.number(), u8::from(refusal), Refusal::try_from(number)), (number, number, Ok(refusal)));
        assert!(refusal.to_string().starts_with(&format!("refused with {number}: ")));
    }
    let error: Box<dyn std::error::Error> = Refusal::AboveLimit.into();
    assert_eq!(error.to_string(), "refused with 1: a start or a length is above 4,194,304");
    for number in [0, 10, 11, 15, 17, 255] {
        assert_eq!(Refusal::try_from(number), Err(UnknownNumber(number)));
    }
    assert_eq!(UnknownNumber(0).to_string(), "no check has the number 0");
}

/// Refusals are in the order of their checks, which is not that of their numbers.
#[test]
fn the_order_of_the_checks() {
    let mut sorted: Vec<Refusal> = (1..=16).filter_map(Refusal::from_number).collect();
    sorted.sort();
    let numbers: Vec<u8> = sorted.into_iter().map(u8::from).collect();
    assert_eq!(numbers, [16, 1, 2, 13, 3, 14, 4, 5, 12, 6, 7, 8, 9]);
    // A call in which several checks fail gives the least.
    let mask = calls::Mask { start: 0, length: 9, zeros: 1, known: 1, serial: 0 };
    let other = calls::Mask { length: 8, ..mask };
    let failed = [9, 5, 3, 2].map(|number| Refusal::try_from(number).unwrap());
    let answer = calls::and(mask, &[0xFF], other, &[0], &mut []);
    assert_eq!(Refusal::try_from(answer.refusal).ok(), failed.into_iter().min());
}

#[test]
fn the_limit() -> Result<(), Refusal> {
    let limit = Bitmap::LIMIT;
    let bytes = vec![0xFF; 2 * limit / 8 + 1];
    let widest = Bitmap::try_from_span(bytes.clone(), limit, limit)?;
    assert_eq!(Bitmap::try_new(bytes, limit + 1), Err(Refusal::AboveLimit));
    assert_eq!((widest.unset_bits(), widest.not().unset_bits()), (0, limit));
    assert_eq!(widest.sliced(1, 1), Ok(Bitmap::from([true])), "it starts past the limit of its bytes");

    let mut builder = BitmapBuilder::with_capacity(usize::MAX);
    builder.extend_constant(limit - 1, true)?;
    builder.push(true)?;
    assert_eq!(builder.push(true), Err(Refusal::AboveLimit));
    builder.extend_constant(0, true)?;
    assert_eq!(builder.freeze(), widest);

    let mut at_once = BitmapBuilder::new();
    at_once.extend_constant(limit, true)?;
    assert_eq!(at_once.freeze(), widest);
    Ok(())
}

#[test]
#[should_panic(expected = "refused with 1")]
fn collecting_too_many_flags_panics() {
    let _: Bitmap = std::iter::repeat_n(true, Bitmap::LIMIT + 1).collect();
}

/// For each length and start bit the exact count is accepted, and every other count is refused.
#[test]
fn a_false_count_is_refused() -> Result<(), Refusal> {
    let bytes: Vec<u8> = (0..26_u32).map(|i| (i * i * 37 + 11) as u8).collect();
    for (bytes, start, length) in
        [vec![0; 26], vec![0xFF; 26], bytes].iter().flat_map(|b| (0..8).flat_map(move |s| [0, 1, 40, 63, 64, 65, 129].map(|n| (b, s, n))))
    {
        let zeros = Bitmap::try_from_span(bytes.clone(), start, length)?.unset_bits();
        for claimed in 0..=length + 1 {
            let made = Bitmap::try_from_counted_span(bytes.clone(), start, length, claimed);
            if claimed == zeros {
                assert_eq!(made?.lazy_unset_bits(), Some(zeros));
            } else {
                assert_eq!(made, Err(Refusal::FalseCount), "{claimed} zeros for {zeros} of {length} from {start} on");
            }
        }
    }
    Ok(())
}

/// Every plain call that takes masks refuses a stale count of each of them with 3, and writes nothing.
#[test]
fn a_stale_count_at_each_call() {
    let (bytes, length) = ([0x2D], 6);
    let good = calls::Mask { start: 0, length, zeros: 2, known: 1, serial: 0 };
    for zeros in [0, 1, 3, 6, 7, usize::MAX] {
        let stale = calls::Mask { zeros, ..good };
        let mut out = [0xAA; 8];
        let mut numbers = vec![
            calls::unset_bits(stale, &bytes).refusal,
            calls::slice(stale, &bytes, 0, 6).refusal,
            calls::not(stale, &bytes, &mut out).refusal,
            calls::num_edges(stale, &bytes).refusal,
            calls::slices_new(stale, &bytes).refusal,
            calls::true_idx_new(length, true, stale, &bytes).refusal,
            calls::subslice_extend_from_bitmap(calls::builder_new(), &mut out, stale, &bytes, 0, 6).refusal,
        ];
        for (a, b) in [(stale, good), (good, stale)] {
            for call in [calls::and, calls::and_not, calls::or, calls::or_not, calls::xor] {
                numbers.push(call(a, &bytes, b, &bytes, &mut out).refusal);
            }
            numbers.push(calls::select_constant(a, &bytes, b, &bytes, true, &mut out).refusal);
            numbers.push(calls::eq(a, &bytes, b, &bytes).refusal);
            numbers.push(calls::num_intersections_with(a, &bytes, b, &bytes).refusal);
            numbers.push(calls::and_not_at(true, a, &bytes, true, b, &bytes, 0).refusal);
            numbers.push(calls::may_reassign(true, a, &bytes, true, b, &bytes, 0).refusal);
        }
        for (a, b, c) in [(stale, good, good), (good, stale, good), (good, good, stale)] {
            numbers.push(calls::select(a, &bytes, b, &bytes, c, &bytes, &mut out).refusal);
        }
        assert!(numbers.iter().all(|&number| number == Refusal::FalseCount.number()), "{zeros} zeros: {numbers:?}");
        assert_eq!(out, [0xAA; 8]);
    }
}
