//! Masks combined, compared with lists combined flag by flag; and one mask made in many ways.

use poruwhina::{Bitmap, BitmapBuilder, Permission, may_reassign};

use crate::lists::{Random, patterns, runs, word, zeros};
use crate::{flags_of, mask_at};

/// Checks every operation on two masks of equal lengths.
fn check_pair(left: &[bool], right: &[bool], a: &Bitmap, b: &Bitmap) {
    let expect = |operation: fn(bool, bool) -> bool| -> Vec<bool> { left.iter().zip(right).map(|(&x, &y)| operation(x, y)).collect() };
    let falsy: Vec<bool> = left.iter().rev().copied().collect();
    let selected = (0..left.len()).map(|i| if left[i] { right[i] } else { falsy[i] }).collect();
    let results = [
        (a.and(b), expect(|x, y| x && y)),
        (a.and_not(b), expect(|x, y| x && !y)),
        (a.or(b), expect(|x, y| x || y)),
        (a.or_not(b), expect(|x, y| x || !y)),
        (a.xor(b), expect(|x, y| x != y)),
        (a.select(b, &mask_at(&falsy, 1)), selected),
        (a.select_constant(b, false), expect(|x, y| x && y)),
        (a.select_constant(b, true), expect(|x, y| !x || y)),
        (Ok(a.not()), expect(|x, _| !x)),
        (Ok(a & b), expect(|x, y| x && y)),
        (Ok(a | b), expect(|x, y| x || y)),
        (Ok(a ^ b), expect(|x, y| x != y)),
        (Ok(!b), expect(|_, y| !y)),
    ];
    for (result, flags) in results {
        let result = result.expect("one length");
        assert_eq!(flags_of(&result), flags);
        assert!(result.lazy_unset_bits().is_none_or(|count| count == zeros(&flags)));
        assert_eq!(result.unset_bits(), zeros(&flags));
        assert_eq!(result.frozen_bytes(), result.as_slice().0, "written as frozen bytes, zero past the end");
    }
    assert_eq!(a.num_intersections_with(b), Ok(left.len() - zeros(&expect(|x, y| x && y))));
    assert_eq!(a == b, left == right);
}

/// Checks every operation before and after the masks' counts are known: they change no result.
#[test]
fn combinations() {
    for length in [0, 1, 7, 8, 9, 40, 63, 64, 65, 127, 128, 130] {
        for (i, left) in patterns(length).iter().enumerate() {
            for (j, right) in patterns(length).iter().enumerate() {
                for starts in 0..8 {
                    let (a, b) = (mask_at(left, starts), mask_at(right, (3 * starts + i + j) % 8));
                    check_pair(left, right, &a, &b);
                    a.unset_bits();
                    check_pair(left, right, &a, &b);
                    b.unset_bits();
                    check_pair(left, right, &a, &b);
                }
            }
        }
    }
}

#[test]
#[should_panic(expected = "refused with 5")]
fn an_operator_panics_on_unequal_lengths() {
    let _ = &Bitmap::from([true]) & &Bitmap::from([true, true]);
}

/// Returns the mask of the flags, made in each of several ways.
fn routes(flags: &[bool]) -> Vec<Bitmap> {
    let whole = mask_at(flags, 5);
    let built = |append: &dyn Fn(&mut BitmapBuilder)| {
        let mut builder = BitmapBuilder::new();
        append(&mut builder);
        builder.freeze()
    };
    let every: Vec<u32> = (0..flags.len() as u32).collect();
    let (bytes, start, length) = whole.as_slice();
    let longer = mask_at(&[&[true, false], flags, &[true]].concat(), 3);
    vec![
        Bitmap::from(flags),
        built(&|builder| flags.iter().for_each(|&flag| builder.extend_constant(1, flag).unwrap())),
        built(&|builder| builder.extend_from_slice(bytes, start, length).unwrap()),
        built(&|builder| builder.extend_from_bitmap(&whole).unwrap()),
        built(&|builder| builder.extend_each_repeated_from_slice(bytes, start, length, 1).unwrap()),
        built(&|builder| builder.gather_extend_from_slice(bytes, start, length, &every).unwrap()),
        built(&|builder| builder.opt_gather_extend_from_slice(bytes, start, length, &every).unwrap()),
        built(&|builder| builder.subslice_extend_from_bitmap(&longer, 2, length).unwrap()),
        built(&|builder| flags.chunks(60).for_each(|part| builder.push_word_with_len(word(part, 0, 64), part.len()).unwrap())),
        longer.sliced(2, length).unwrap(),
        whole.not().not(),
        whole.and(&whole).unwrap(),
        whole.or(&Bitmap::new_zeroed(length).unwrap()).unwrap(),
        whole.xor(&Bitmap::new_zeroed(length).unwrap().not()).unwrap().not(),
        whole,
    ]
}

#[test]
fn every_route_gives_the_same_mask() {
    for length in 0..=130 {
        for flags in patterns(length) {
            let masks = routes(&flags);
            for mask in &masks {
                assert_eq!(flags_of(mask), flags);
                assert_eq!(mask, &masks[0]);
                assert_eq!(mask.frozen_bytes(), masks[0].frozen_bytes());
                assert_eq!(mask.unset_bits(), zeros(&flags));
                assert_eq!(format!("{mask:?}"), format!("{:?}", masks[0]));
                assert!(mask.slices().eq(runs(&flags)));
            }
        }
    }
}

#[test]
fn dispatch_reads_the_flag_of_and_not() {
    let mut random = Random(9);
    let (permitted, revoked) = (random.flags(130), random.flags(130));
    let (permission, revocation) = (mask_at(&permitted, 3), mask_at(&revoked, 6));
    let both = permission.and_not(&revocation).unwrap();
    for (truck, &is_permitted) in permitted.iter().enumerate() {
        assert_eq!(may_reassign(Permission::Mask(&permission), Some(&revocation), truck).ok(), both.get(truck));
        assert_eq!(may_reassign(Permission::Mask(&permission), None, truck), Ok(is_permitted));
        assert_eq!(may_reassign(Permission::NoMask, Some(&revocation), truck), Ok(false));
        assert_eq!(may_reassign(Permission::NoMask, None, truck), Ok(false));
    }
}
