//! Masks compared, hashed and shown, beside lists of flags.

use std::cmp::Ordering;
use std::collections::hash_map::DefaultHasher;
use std::collections::{BTreeSet, HashSet};
use std::hash::{Hash, Hasher};

use poruwhina::Bitmap;

use crate::lists::{Random, patterns};
use crate::{flags_of, mask_at};

fn hash_of(mask: &Bitmap) -> u64 {
    let mut hasher = DefaultHasher::new();
    mask.hash(&mut hasher);
    hasher.finish()
}

/// Returns lists that agree up to some flag: of all lengths around words, each with one flag changed at some places.
fn near_lists() -> Vec<Vec<bool>> {
    let mut lists = Vec::new();
    for length in [0, 1, 2, 63, 64, 65, 127, 128, 129, 200] {
        for flags in patterns(200) {
            let flags = &flags[..length];
            lists.push(flags.to_vec());
            for at in [0, 1, 62, 63, 64, 65, 127, 128, 199].into_iter().filter(|&at| at < length) {
                let mut changed = flags.to_vec();
                changed[at] = !changed[at];
                lists.push(changed);
            }
        }
    }
    lists
}

#[test]
fn masks_are_ordered_as_their_lists() {
    let lists = near_lists();
    for (i, left) in lists.iter().enumerate() {
        let a = mask_at(left, i % 8).with_serial(i as u32);
        for (j, right) in lists.iter().enumerate().step_by(1 + i % 3) {
            let b = mask_at(right, j % 8);
            assert_eq!(a.cmp(&b), left.cmp(right), "{left:?} {right:?}");
            assert_eq!(a.partial_cmp(&b) == Some(Ordering::Equal), a == b);
            assert!(a != b || hash_of(&a) == hash_of(&b));
        }
    }
}

/// The kept count, which can change under `&self`, is no part of the hash or of the order.
#[test]
#[allow(clippy::mutable_key_type)]
fn masks_in_sets() {
    let lists = near_lists();
    let plain: BTreeSet<&Vec<bool>> = lists.iter().collect();
    let sorted: BTreeSet<Bitmap> = lists.iter().map(|flags| mask_at(flags, flags.len() % 8)).collect();
    let hashed: HashSet<Bitmap> = lists.iter().map(|flags| mask_at(flags, 1)).collect();
    assert!(sorted.iter().map(flags_of).eq(plain.iter().map(|flags| flags.to_vec())));
    hashed.iter().for_each(|mask| assert!(mask.unset_bits() <= mask.len() && hashed.contains(mask)));
    assert_eq!(hashed, sorted.into_iter().collect());
    assert!(hashed.iter().map(hash_of).collect::<HashSet<u64>>().len() + 2 > hashed.len(), "hashes of different masks differ");
}

/// The first flag is leftmost, and no flag is left out.
#[test]
fn masks_are_shown_as_they_are_read() {
    let mut random = Random(21);
    for length in [0, 1, 9, 64, 65, 300] {
        let flags = random.flags(length);
        let text: String = flags.iter().map(|&flag| if flag { '1' } else { '0' }).collect();
        let mask = mask_at(&flags, 3);
        assert_eq!((mask.to_string(), format!("{mask:b}"), format!("{mask:#b}")), (text.clone(), text.clone(), format!("0b{text}")));
        assert_eq!(format!("{mask:>310}|{mask:08b}"), format!("{text:>310}|{text:08}"));
    }
    assert_eq!(Bitmap::new().to_string(), "");
}
