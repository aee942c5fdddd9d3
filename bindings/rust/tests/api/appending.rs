//! A builder, compared with a list to which the same flags are appended.

use poruwhina::{Bitmap, BitmapBuilder, Refusal};

use crate::flags_of;
use crate::lists::{Random, packed, word};

/// Makes one append of a random kind to the builder and the list.
fn append(random: &mut Random, builder: &mut BitmapBuilder, list: &mut Vec<bool>) -> Result<(), Refusal> {
    let length = random.below(100);
    let (flags, start) = (random.flags(length), random.below(20));
    let bytes = packed(&flags, start, random.flag());
    let idxs: Vec<u32> = (0..random.below(90)).map(|_| random.below(length + 9) as u32).collect();
    let at = |i: &u32| flags.get(*i as usize).copied();
    match random.below(8) {
        0 => {
            builder.push(start < 10)?;
            list.push(start < 10);
        }
        1 => {
            builder.extend_constant(length, start < 10)?;
            list.extend(vec![start < 10; length]);
        }
        2 => {
            let part = &flags[..length.min(64)];
            builder.push_word_with_len(word(part, 0, 64), part.len())?;
            list.extend(part);
        }
        3 => {
            builder.extend_from_slice(&bytes, start, length)?;
            list.extend(&flags);
        }
        4 => {
            let repeats = random.below(5);
            builder.extend_each_repeated_from_slice(&bytes, start, length, repeats)?;
            list.extend(flags.iter().flat_map(|&flag| vec![flag; repeats]));
        }
        5 => {
            let first = random.below(length + 1);
            builder.subslice_extend_from_bitmap(&Bitmap::try_from_span(bytes, start, length)?, first, length - first)?;
            list.extend(&flags[first..]);
        }
        6 => {
            let inside: Vec<u32> = idxs.into_iter().filter(|i| at(i).is_some()).collect();
            builder.gather_extend_from_slice(&bytes, start, length, &inside)?;
            list.extend(inside.iter().filter_map(at));
        }
        _ => {
            builder.opt_gather_extend_from_slice(&bytes, start, length, &idxs)?;
            list.extend(idxs.iter().map(|i| at(i).unwrap_or(false)));
        }
    }
    Ok(())
}

#[test]
fn appends_of_every_kind() -> Result<(), Refusal> {
    let mut random = Random(1);
    for _ in 0..100 {
        let (mut builder, mut list) = (BitmapBuilder::with_capacity(random.below(300)), Vec::new());
        for _ in 0..30 {
            append(&mut random, &mut builder, &mut list)?;
            assert_eq!((builder.len(), builder.is_empty()), (list.len(), list.is_empty()));
            let mask = builder.clone().freeze();
            assert_eq!(flags_of(&mask), list);
            assert_eq!(mask.as_slice(), (&mask.frozen_bytes()[..], 0, list.len()));
            assert_eq!(mask.lazy_unset_bits(), Some(list.iter().filter(|flag| !**flag).count()));
            let validity = builder.clone().into_opt_validity();
            assert_eq!(validity, list.contains(&false).then_some(mask));
        }
    }
    Ok(())
}

/// 60 ones, then 5: eight bytes 0xFF, 0x01, seven zeros.
#[test]
fn past_a_word() -> Result<(), Refusal> {
    let mut builder = BitmapBuilder::new();
    builder.extend_constant(60, true)?;
    builder.extend_constant(5, true)?;
    let bytes = builder.freeze().frozen_bytes();
    assert_eq!((&bytes[..8], &bytes[8..]), (&[0xFF; 8][..], &[1, 0, 0, 0, 0, 0, 0, 0][..]));
    Ok(())
}

#[test]
fn a_clone_goes_its_own_way() -> Result<(), Refusal> {
    let mut builder = BitmapBuilder::new();
    builder.extend_constant(70, true)?;
    let mut other = builder.clone();
    builder.extend_constant(70, false)?;
    other.extend_constant(70, true)?;
    assert_eq!((builder.freeze().unset_bits(), other.freeze().unset_bits()), (70, 0));
    Ok(())
}
