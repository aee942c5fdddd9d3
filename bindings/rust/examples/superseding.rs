//! A planner edits a stored mask by its runs and saves it: `cargo run --example superseding`.
//!
//! If the edit is saved under the serial of the stored mask, comparing the two is refused with 14, and neither wins unseen. Saved under a
//! larger serial the edit wins. A mask that is rebuilt has serial 0 until its serial is set.

use poruwhina::{Bitmap, ListError};

fn main() -> Result<(), ListError> {
    let stored = Bitmap::from_runs(40, [(4, 8), (20, 3)])?.with_serial(6);
    let mut runs: Vec<(usize, usize)> = stored.slices().collect();
    runs[0] = (5, 7);
    let edited = Bitmap::from_runs(40, runs)?;

    for serial in [stored.serial(), stored.serial() + 1] {
        match Bitmap::superseding(&stored, &edited.clone().with_serial(serial)) {
            Ok(winner) => println!("saved under {serial}: the mask of runs {:?} is in force", winner.slices().collect::<Vec<_>>()),
            Err(refusal) => println!("saved under {serial}: {refusal}"),
        }
    }
    Ok(())
}
