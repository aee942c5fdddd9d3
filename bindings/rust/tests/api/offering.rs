//! Trucks offered one after another, compared with plain lists of flags.

use poruwhina::{Bitmap, Offer, Permission, Refusal, offer, offers};

use crate::lists::Random;
use crate::mask_at;

/// Returns the truck, found flag by flag, and the number of windows, counted one by one.
fn expected(free: &[bool], cursor: usize) -> Offer {
    let starts = (cursor..free.len()).step_by(32).chain((0..cursor).step_by(32));
    let truck = (cursor..free.len()).chain(0..cursor).find(|&truck| free[truck]);
    let windows = match truck {
        None => starts.count(),
        Some(truck) => 1 + starts.take_while(|&start| !(start..start + 32).contains(&truck)).count(),
    };
    Offer { truck, cursor: truck.map_or(cursor, |truck| truck + 1), windows }
}

#[test]
fn the_next_truck_and_the_windows_are_those_of_the_flags() {
    let mut random = Random(11);
    for n in [0, 1, 31, 32, 33, 63, 64, 65, 96, 130, 1023, 1024, 1025, 2100] {
        for few in [false, true] {
            let mut permitted = random.flags(n);
            let mut revoked = random.flags(n);
            if few {
                permitted.iter_mut().enumerate().for_each(|(truck, flag)| *flag = truck % 29 == 28 || truck + 1 == n);
                revoked.iter_mut().enumerate().for_each(|(truck, flag)| *flag = truck % 2 == 0 && truck + 1 != n);
            }
            let free: Vec<bool> = permitted.iter().zip(&revoked).map(|(p, r)| *p && !*r).collect();
            let (permission, revocation) = (mask_at(&permitted, 5), mask_at(&revoked, 2));
            let mask = Permission::Mask(&permission);
            for cursor in (0..=n).filter(|c| n < 140 || c % 61 == 0 || c % 32 < 2 || n - c < 3) {
                assert_eq!(offer(mask, Some(&revocation), cursor), Ok(expected(&free, cursor)), "{n} trucks, cursor {cursor}");
                assert_eq!(offer(mask, None, cursor), Ok(expected(&permitted, cursor)));
                let found = expected(&free, cursor);
                assert_eq!(permission.next_and_not(Some(&revocation), cursor), Ok((found.truck, found.windows)));
                assert!(found.windows <= n.div_ceil(32) + 1);
                assert_eq!(offer(Permission::NoMask, Some(&revocation), cursor), Ok(Offer { truck: None, cursor, windows: 0 }));
            }
            assert_eq!(offer(mask, Some(&revocation), n + 1), Err(Refusal::OutsideMask));
            assert_eq!(offer(Permission::NoMask, None, usize::MAX), Ok(Offer { truck: None, cursor: usize::MAX, windows: 0 }));
        }
    }
}

#[test]
fn a_round_offers_each_truck_once() {
    let mut random = Random(12);
    for n in [0, 1, 33, 64, 70] {
        let (permitted, revoked) = (random.flags(n), random.flags(n));
        let (permission, revocation) = (mask_at(&permitted, 1), mask_at(&revoked, 3));
        for cursor in 0..=n {
            let round: Vec<usize> = offers(Permission::Mask(&permission), Some(&revocation), cursor).unwrap().collect();
            let free = |truck: &usize| permitted[*truck] && !revoked[*truck];
            assert!(round.iter().copied().eq((cursor..n).chain(0..cursor).filter(free)));
        }
    }
    let one = Bitmap::from([false, true]);
    let mut round = offers(Permission::Mask(&one), None, 2).unwrap();
    assert_eq!((round.cursor(), round.next(), round.cursor(), round.next(), round.cursor()), (2, Some(1), 2, None, 2));
}
