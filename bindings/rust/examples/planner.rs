//! A shift planner edits runs, not flags, and saves: `cargo run --example planner`.
//!
//! The screen takes the runs from the mask, edits them and saves them by `Bitmap::from_runs`, which makes the calls: `extend_constant` for
//! each gap's zeros, for each run's ones and once for the zeros up to the length. It is proved that these calls make the list of flags with
//! these runs, and that there is exactly one such list.

use poruwhina::{Bitmap, ListError};

/// The first truck of a run and its length.
type Run = (usize, usize);

/// Returns whether the runs are at least one truck long, rising, with at least one truck between neighbours, and inside the length.
/// Exactly these lists are the runs of a mask.
fn is_run_list(length: usize, runs: &[Run]) -> bool {
    runs.iter().all(|&(start, trucks)| trucks > 0 && start < length && trucks <= length - start)
        && runs.windows(2).all(|two| two[0].0 + two[0].1 < two[1].0)
}

fn main() -> Result<(), ListError> {
    // The operator may reassign trucks 4 to 11 and 20 to 31, of forty.
    let trucks = 40;
    let mask: Bitmap = (0..trucks).map(|truck| (4..12).contains(&truck) || (20..32).contains(&truck)).collect();
    let mut runs: Vec<Run> = mask.slices().collect();
    println!("runs {runs:?}");

    // The unedited runs, saved, make the same mask.
    assert_eq!(Bitmap::from_runs(trucks, runs.iter().copied())?, mask);

    // The second run begins three trucks earlier.
    let (start, length) = runs[1];
    runs[1] = (start - 3, length + 3);
    assert!(is_run_list(trucks, &runs));
    let saved = Bitmap::from_runs(trucks, runs.iter().copied())?;
    assert!(saved.slices().eq(runs.iter().copied()));
    println!("saved {runs:?}, {} trucks", saved.set_bits());

    // A list whose second run begins where the first ends is no run list: the two would be one run. `from_runs` takes it all the same.
    runs[1] = (12, 20);
    assert!(!is_run_list(trucks, &runs));
    println!("refused by the screen {runs:?}");

    // Runs that overlap make no mask.
    runs[1] = (11, 20);
    assert_eq!(Bitmap::from_runs(trucks, runs.iter().copied()), Err(ListError::NotRising { index: 1 }));
    Ok(())
}
