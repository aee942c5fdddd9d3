//! A mask is rebuilt from its length and runs, only by `extend_constant`.

use poruwhina::{Bitmap, BitmapBuilder};

/// Returns the mask of zeros for each gap, ones for each run and zeros for the rest; empty gaps are left out if `leave_out`.
fn saved(length: usize, runs: &[(usize, usize)], leave_out: bool) -> Bitmap {
    let mut builder = BitmapBuilder::new();
    let zeros = |builder: &mut BitmapBuilder, end: usize| {
        let gap = end - builder.len();
        if gap > 0 || !leave_out {
            builder.extend_constant(gap, false).expect("room for the gap");
        }
    };
    for &(start, ones) in runs {
        zeros(&mut builder, start);
        builder.extend_constant(ones, true).expect("room for the run");
    }
    zeros(&mut builder, length);
    builder.freeze()
}

#[test]
fn runs_give_the_mask_back() {
    crate::each_list(|flags, mask| {
        let runs: Vec<(usize, usize)> = mask.slices().collect();
        for leave_out in [false, true] {
            let rebuilt = saved(mask.len(), &runs, leave_out);
            assert_eq!(&rebuilt, mask);
            assert!(rebuilt.iter().eq(flags.iter().copied()));
        }
    });
}

#[test]
fn a_moved_start_is_saved() {
    let mask: Bitmap = (0..130).map(|truck| truck % 65 < 20).collect();
    let mut runs: Vec<(usize, usize)> = mask.slices().collect();
    assert_eq!(runs, [(0, 20), (65, 20)]);
    runs[1] = (64, 21);
    let edited = saved(130, &runs, true);
    assert!(edited.slices().eq(runs));
    assert!(edited.iter().enumerate().all(|(truck, flag)| flag == (truck == 64 || truck % 65 < 20)));
}
