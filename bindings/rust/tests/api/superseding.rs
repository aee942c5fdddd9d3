//! Serials: which mask wins, which calls keep a serial, and masks that start far into their bytes.

use poruwhina::{Bitmap, BitmapBuilder, Refusal, calls};

/// Returns the mask of `length` flags with these runs of ones, each a start and a length, and with this serial.
fn rebuilt(runs: &[(usize, usize)], length: usize, serial: u32) -> Bitmap {
    let mut builder = BitmapBuilder::new().with_serial(serial);
    for &(start, many) in runs {
        builder.extend_constant(start - builder.len(), false).unwrap();
        builder.extend_constant(many, true).unwrap();
    }
    builder.extend_constant(length - builder.len(), false).unwrap();
    builder.freeze()
}

/// A planner moves the start of a run and saves: with the old serial neither mask wins, with a larger one the edit wins.
#[test]
fn a_planners_edit() -> Result<(), Refusal> {
    let stored = rebuilt(&[(4, 8), (20, 3)], 40, 6);
    let mut runs: Vec<(usize, usize)> = stored.slices().collect();
    assert_eq!(rebuilt(&runs, 40, 6), stored);
    assert_eq!(Bitmap::superseding(&stored, &rebuilt(&runs, 40, 6))?.serial(), 6, "not edited: the first");
    runs[0] = (5, 7);

    let same = rebuilt(&runs, 40, stored.serial());
    assert_eq!(Bitmap::superseding(&stored, &same), Err(Refusal::SerialConflict));
    assert_eq!(Bitmap::superseding(&same, &stored), Err(Refusal::SerialConflict));

    let later = rebuilt(&runs, 40, stored.serial() + 1);
    for winner in [Bitmap::superseding(&stored, &later)?, Bitmap::superseding(&later, &stored)?] {
        assert_eq!((&winner, winner.serial(), winner.lazy_unset_bits()), (&later, 7, Some(30)));
    }
    let forgotten = rebuilt(&runs, 40, 0);
    assert_eq!(Bitmap::superseding(&stored, &forgotten)?, stored, "a serial that nobody set does not win");
    Ok(())
}

/// The mask returned shares the bytes of the one that wins, at every start bit.
#[test]
fn the_winner_shares_its_bytes() -> Result<(), Refusal> {
    let bytes: Vec<u8> = (0..40u8).map(|byte| byte.wrapping_mul(37) ^ 11).collect();
    let loser = Bitmap::new().with_serial(1);
    for start in 0..70 {
        for length in [0, 1, 7, 8, 9, 63, 64, 65] {
            let mask = Bitmap::try_from_span(bytes.clone(), start, length)?.with_serial(2);
            let winner = Bitmap::superseding(&loser, &mask)?;
            assert_eq!((winner.as_slice(), winner.serial()), (mask.as_slice(), 2));
            assert_eq!(winner.as_slice().0.as_ptr(), mask.as_slice().0.as_ptr());
        }
    }
    Ok(())
}

#[test]
fn serials_are_handed_on() -> Result<(), Refusal> {
    let masks: Vec<Bitmap> = [3, 9, 5].iter().map(|&serial| Bitmap::from([true, false, true]).with_serial(serial)).collect();
    let [a, b, c] = &masks[..] else { unreachable!() };
    let combined = [a.and(b)?, b.and_not(a)?, a.or(b)?, b.or_not(a)?, a.xor(b)?, a.select(c, b)?, b.select_constant(a, true)?, b.not()];
    assert!(combined.iter().all(|mask| mask.serial() == 9));
    assert_eq!((a.sliced(1, 2)?.serial(), a.split_at(1)?.1.serial(), a.clone().serial()), (3, 3, 3));
    assert_eq!((a == b, Bitmap::superseding(a, b)?.serial()), (true, 9), "equal flags, whatever the serials");
    assert_eq!((Bitmap::new_zeroed(3)?.serial(), Bitmap::try_new([1], 3)?.serial(), Bitmap::from([true]).serial()), (0, 0, 0));
    assert_eq!(u32::MAX, Bitmap::superseding(a, &b.clone().with_serial(u32::MAX))?.serial());

    let mut builder = BitmapBuilder::new().with_serial(4);
    builder.extend_from_bitmap(b)?;
    assert_eq!(builder.push_word_with_len(2, 1), Err(Refusal::OutsideMask));
    assert_eq!((builder.serial(), builder.clone().into_opt_validity().map(|mask| mask.serial())), (4, Some(4)));
    Ok(())
}

/// A mask that starts at bit 4,194,304, or after it, answers as its copy at bit 0 does.
#[test]
fn far_behind_in_the_bytes() -> Result<(), Refusal> {
    let limit = Bitmap::LIMIT;
    let bytes: Vec<u8> = (0..2_000_000u32).map(|byte| (byte * 37 % 251) as u8).collect();
    for start in [limit, limit + 3, 3 * limit + 5] {
        let far = Bitmap::try_from_span(bytes.clone(), start, 1000)?;
        let copy: Bitmap = far.iter().collect();
        assert_eq!(far, copy);
        assert_eq!((far.sliced(8, 100)?, far.sliced(1000, 0)?), (copy.sliced(8, 100)?, copy.sliced(1000, 0)?));
        assert_eq!((far.unset_bits(), far.num_edges(), far.not()), (copy.unset_bits(), copy.num_edges(), copy.not()));
        assert!(far.slices().eq(copy.slices()) && far.true_idx_iter().eq(copy.true_idx_iter()));
        assert_eq!(far.get_u32(31), copy.get_u32(31));
    }
    let odd = Bitmap::try_from_span(vec![0xFF; limit / 8 + 1], 7, limit)?;
    for offset in limit - 9..=limit {
        assert_eq!(odd.sliced(offset, limit - offset)?.unset_bits(), 0);
        assert_eq!(odd.sliced(offset, limit - offset + 1), Err(Refusal::OutsideMask));
    }
    assert_eq!(odd.sliced(limit + 1, 0), Err(Refusal::AboveLimit));
    assert_eq!(Bitmap::try_from_counted_span(bytes.clone(), 3 * limit, 8, 9), Err(Refusal::FalseCount));
    assert_eq!(Bitmap::try_from_span(bytes, 16_000_000 - 7, 8), Err(Refusal::OutsideBytes));
    Ok(())
}

/// The winner's part for callers of the plain call.
#[test]
fn plain_slices() {
    let (first, second) = ([0x2D, 0xF0, 0x0F], [0xFF]);
    let mask = calls::Mask { serial: 1, ..calls::try_new(&first, 9, 10).mask };
    let other = calls::try_new(&second, 0, 8).mask;
    let answer = calls::superseding(mask, &first, other, &second);
    assert_eq!((answer.bytes(&first, &second), answer.mask.start), (&first[1..3], 1));
    let damaged = calls::Mask { length: 9, ..other };
    let answer = calls::superseding(mask, &first, damaged, &second);
    assert_eq!((answer.refusal, answer.bytes(&first, &second).len(), answer.mask), (2, 0, calls::Mask::default()));
}
