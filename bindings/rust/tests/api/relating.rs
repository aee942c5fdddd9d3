//! What holds of one mask or of two, compared with lists of flags; and which types can be sent to another thread.

use poruwhina::{
    ActivityWindow, BitChunks, Bitmap, BitmapBuilder, BitmapIntoIter, BitmapIter, Grid, ListError, Offer, Offers, Permission, Refusal,
    RefusedLengths, RowIter, SlicesIterator, TrueIdxIter, WindowParts,
};

use crate::lists::patterns;
use crate::{each_list, mask_at};

#[test]
fn any_all_none() {
    each_list(|flags, mask| {
        assert_eq!((mask.any(), mask.none()), (flags.contains(&true), !flags.contains(&true)));
        assert_eq!(mask.all(), !flags.contains(&false));
    });
}

#[test]
fn two_masks() {
    for length in [0, 1, 2, 31, 32, 33, 64, 65, 130] {
        for left in patterns(length) {
            for (start, right) in patterns(length).into_iter().enumerate() {
                let common: Vec<bool> = left.iter().zip(&right).map(|(a, b)| *a && *b).collect();
                for (left, right) in [(&left, &right), (&common, &right), (&right, &common)] {
                    let (a, b) = (mask_at(left, 6), mask_at(right, start));
                    let both = left.iter().zip(right).any(|(a, b)| *a && *b);
                    assert_eq!((a.intersects_with(&b), a.is_disjoint(&b)), (Ok(both), Ok(!both)));
                    assert_eq!(a.is_subset(&b), Ok(left.iter().zip(right).all(|(a, b)| !a || *b)));
                }
            }
        }
    }
    let (a, b) = (Bitmap::from([true]), Bitmap::from([true, true]));
    assert_eq!([a.intersects_with(&b), a.is_disjoint(&b), a.is_subset(&b)], [Err(Refusal::UnequalLengths); 3]);
}

#[test]
fn a_permission_of_a_mask() {
    let (mask, other) = (Bitmap::from([true]), Bitmap::from([false]));
    assert_eq!(Permission::from(&mask), Permission::Mask(&mask.clone()));
    assert_ne!(Permission::from(&mask), Permission::Mask(&other));
    assert_ne!(Permission::from(&mask), Permission::NoMask);
}

/// Every type can be sent to another thread and shared with it, and stays usable after a panic that was caught.
#[test]
fn threads() {
    fn shared<T: Send + Sync + Unpin + std::panic::UnwindSafe + std::panic::RefUnwindSafe>() {}
    fn owned<T: Send + Sync + 'static>() {}
    owned::<(Bitmap, BitmapBuilder, BitmapIntoIter, Grid)>();
    owned::<(ActivityWindow, WindowParts, Refusal, RefusedLengths, ListError)>();
    shared::<(Bitmap, BitmapBuilder, BitmapIntoIter, Grid, ActivityWindow, WindowParts)>();
    shared::<(BitmapIter, SlicesIterator, TrueIdxIter, BitChunks, RowIter)>();
    shared::<(Permission, Offer, Offers, Refusal, RefusedLengths, ListError)>();

    let mask = Bitmap::from([true, false, true]);
    let flags = mask.clone().into_iter();
    assert_eq!(std::thread::spawn(move || flags.filter(|flag| *flag).count()).join().unwrap(), mask.set_bits());
}
