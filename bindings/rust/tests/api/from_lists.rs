//! Masks from positions, from runs, from single flags and from bytes of every kind.

use std::borrow::Cow;
use std::sync::Arc;

use poruwhina::{Bitmap, BitmapBuilder, ListError, Refusal};

use crate::lists::{Random, positions, runs};
use crate::{each_list, flags_of};

#[test]
fn positions_and_runs_give_the_mask_back() {
    each_list(|flags, mask| {
        let length = flags.len();
        assert_eq!(Bitmap::from_positions(length, positions(flags)).as_ref(), Ok(mask));
        assert_eq!(Bitmap::from_positions(length, mask.true_idx_iter()).as_ref(), Ok(mask));
        assert_eq!(Bitmap::from_runs(length, runs(flags)).as_ref(), Ok(mask));
        assert_eq!(Bitmap::from_runs(length, mask.slices()).as_ref(), Ok(mask));
        let in_pieces = runs(flags).into_iter().flat_map(|(start, many)| [(start, 1), (start + 1, 0), (start + 1, many - 1)]);
        assert_eq!(Bitmap::from_runs(length, in_pieces).as_ref(), Ok(mask), "runs that touch, and empty ones");
    });
}

#[test]
fn lists_that_are_not_taken() {
    let rising = |index| Err(ListError::NotRising { index });
    let past = |index| Err(ListError::PastLength { index });
    assert_eq!(Bitmap::from_positions(40, [3, 3]), rising(1));
    assert_eq!(Bitmap::from_positions(40, [0, 5, 4, 60]), rising(2));
    assert_eq!(Bitmap::from_positions(40, [0, 39, 40]), past(2));
    assert_eq!(Bitmap::from_positions(0, [0]), past(0));
    assert_eq!(Bitmap::from_positions(40, [usize::MAX]), past(0));
    assert_eq!(Bitmap::from_runs(40, [(4, 8), (11, 2)]), rising(1));
    assert_eq!(Bitmap::from_runs(40, [(4, 8), (4, 0)]), rising(1));
    assert_eq!(Bitmap::from_runs(40, [(4, 8), (39, 2)]), past(1));
    for (start, many) in [(41, 0), (40, 1), (0, 41), (1, usize::MAX), (usize::MAX, 1), (usize::MAX, usize::MAX)] {
        assert_eq!(Bitmap::from_runs(40, [(start, many)]), past(0), "{start} {many}");
    }
    assert_eq!(Bitmap::from_runs(40, [(40, 0)]), Bitmap::new_zeroed(40).map_err(ListError::from));
    for length in [Bitmap::LIMIT + 1, usize::MAX] {
        let refused = Err(ListError::Refused(Refusal::AboveLimit));
        assert_eq!(Bitmap::from_positions(length, []), refused);
        assert_eq!(Bitmap::from_runs(length, [(0, length)]), refused);
    }
    assert_eq!(Bitmap::from_positions(usize::MAX, 0..usize::MAX), Err(ListError::Refused(Refusal::AboveLimit)));
    let error: Box<dyn std::error::Error + Send + Sync> = Bitmap::from_positions(40, [60]).unwrap_err().into();
    assert_eq!(error.to_string(), "entry 0 of the list, counted from 0, ends past the length");
    assert_eq!(ListError::from(Refusal::AboveLimit).to_string(), Refusal::AboveLimit.to_string());
}

#[test]
fn each_flag_set_and_cleared() {
    each_list(|flags, mask| {
        let mask = mask.clone().with_serial(6);
        for i in (0..flags.len()).step_by(1 + flags.len() / 9) {
            for flag in [false, true] {
                let mut changed = flags.to_vec();
                changed[i] = flag;
                let own = mask.with_flag(i, flag).expect("a flag of the mask");
                assert_eq!((flags_of(&own), own.serial()), (changed, 6));
            }
        }
        for i in [flags.len(), flags.len() + 1, usize::MAX] {
            assert_eq!(mask.with_flag(i, true), Err(Refusal::OutsideMask));
        }
    });
    let widest = Bitmap::ones(Bitmap::LIMIT).unwrap();
    let last = Bitmap::LIMIT - 1;
    assert!(widest.with_flag(last, false).unwrap().slices().eq([(0, last)]));
}

#[test]
fn one_value_and_many() -> Result<(), Refusal> {
    for length in [0, 1, 64, 65, Bitmap::LIMIT] {
        assert_eq!((Bitmap::ones(length)?.unset_bits(), Bitmap::ones(length)?.len()), (0, length));
        assert_eq!(Bitmap::new_with_value(true, length)?, Bitmap::ones(length)?);
        assert_eq!(Bitmap::new_with_value(false, length)?, Bitmap::new_zeroed(length)?);
    }
    for above in [Bitmap::LIMIT + 1, usize::MAX] {
        assert_eq!(Bitmap::ones(above), Err(Refusal::AboveLimit));
        assert_eq!(Bitmap::new_with_value(false, above), Err(Refusal::AboveLimit));
    }
    Ok(())
}

#[test]
fn from_flags_and_borrowed_flags() {
    let mut random = Random(23);
    for length in [0, 63, 64, 65] {
        let (first, second) = (random.flags(length), random.flags(70));
        let whole = [&first[..], &second].concat();
        assert_eq!(first.iter().collect::<Bitmap>(), Bitmap::from(&first));
        let mut builder = BitmapBuilder::new().with_serial(3);
        builder.extend(&first);
        assert_eq!(builder.try_extend(second.iter().copied()), Ok(()));
        let before = builder.clone().freeze();
        assert_eq!(builder.try_extend(std::iter::repeat_n(true, Bitmap::LIMIT)), Err(Refusal::AboveLimit));
        assert_eq!((builder.len(), builder.serial()), (whole.len(), 3));
        builder.extend(first.iter().copied());
        assert_eq!((flags_of(&before), before.serial()), (whole.clone(), 3));
        let after = builder.clone().freeze();
        assert_eq!(flags_of(&after), [&whole[..], &first].concat(), "as if nothing had been refused");
        assert_eq!(after.lazy_unset_bits(), Some(after.clone().not().set_bits()));
        builder.clear();
        assert!(builder.is_empty());
        builder.extend(&second);
        assert_eq!(flags_of(&builder.freeze()), second);
    }
    let mut builder = BitmapBuilder::with_capacity(3);
    builder.reserve(usize::MAX);
    assert_eq!(builder.freeze(), Bitmap::new());
}

#[test]
fn bytes_of_every_kind() -> Result<(), Refusal> {
    let bytes = vec![0x2D, 0x01];
    let shared: Arc<[u8]> = Arc::from(&bytes[..]);
    let masks = [
        Bitmap::try_new(&bytes, 9)?,
        Bitmap::try_new(&bytes[..], 9)?,
        Bitmap::try_new([0x2D, 0x01], 9)?,
        Bitmap::try_new(b"\x2D\x01", 9)?,
        Bitmap::try_new(bytes.clone().into_boxed_slice(), 9)?,
        Bitmap::try_new(Cow::Borrowed(&bytes[..]), 9)?,
        Bitmap::try_new(&shared, 9)?,
        Bitmap::try_from_span(Arc::clone(&shared), 0, 9)?,
        Bitmap::try_from_counted_span(&bytes, 0, 9, 4)?,
        Bitmap::try_new(bytes, 9)?,
    ];
    assert!(masks.iter().all(|mask| *mask == masks[0]));
    assert_eq!(Bitmap::try_new(shared, 17), Err(Refusal::OutsideBytes));
    Ok(())
}
