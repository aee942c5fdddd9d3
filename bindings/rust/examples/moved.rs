//! A day at dispatch, moved from polars-arrow: `cargo run --example moved`. Before, the program was
//! `compare/original/examples/before_moving.rs`, which prints the same lines; `docs/MIGRATING.md` explains each change.

use poruwhina::{Bitmap, BitmapBuilder, ListError, Refusal, TrueIdxIter};

const TRUCKS: usize = 40;
/// The pits, each with its first truck and its number of trucks.
const PITS: [(&str, usize, usize); 3] = [("north", 0, 16), ("south", 16, 14), ("west", 30, 10)];

/// Reads a stored mask.
fn read(bytes: Vec<u8>, trucks: usize) -> Option<Bitmap> {
    Bitmap::try_new(bytes, trucks).ok()
}

/// Returns the mask of these trucks.
fn mask_of(trucks: &[usize]) -> Result<Bitmap, ListError> {
    Bitmap::from_positions(TRUCKS, trucks.iter().copied())
}

/// Returns the mask with one truck granted or revoked.
fn changed(mask: &Bitmap, truck: usize, permitted: bool) -> Result<Bitmap, Refusal> {
    mask.with_flag(truck, permitted)
}

/// Returns the mask with these runs of ones.
fn from_runs(runs: &[(usize, usize)]) -> Result<Bitmap, ListError> {
    Bitmap::from_runs(TRUCKS, runs.iter().copied())
}

/// Returns the trucks of each pit that may be reassigned.
fn by_pit(allowed: &Bitmap) -> Result<Vec<String>, Refusal> {
    let pits = PITS.iter().map(|&(name, first, count)| {
        let pit = allowed.sliced(first, count)?;
        let trucks: Vec<usize> = pit.true_idx_iter().map(|truck| first + truck).collect();
        Ok(format!("{name}: {} of {count}: {trucks:?}", pit.set_bits()))
    });
    pits.collect()
}

/// Returns the flags as words of 64, the last one padded with zeros.
fn words(mask: &Bitmap) -> Vec<u64> {
    let mut chunks = mask.chunks();
    let whole: Vec<u64> = chunks.by_ref().collect();
    whole.into_iter().chain((chunks.remainder_len() > 0).then(|| chunks.remainder())).collect()
}

/// Returns the validity that Arrow wants of a list with gaps.
fn validity(list: &[Option<u32>]) -> Result<Option<Bitmap>, Refusal> {
    let mut builder = BitmapBuilder::new();
    for entry in list {
        builder.push(entry.is_some())?;
    }
    Ok(builder.into_opt_validity())
}

fn main() -> Result<(), Box<dyn std::error::Error>> {
    let permission = read(vec![0xFF, 0xFF, 0x0F, 0xFF, 0xFF], TRUCKS).expect("five bytes for forty trucks");
    println!("too few bytes: {}", read(vec![0xFF], TRUCKS).is_none());
    let revocation = mask_of(&[3, 5, 31])?;
    println!("{} trucks, {} permitted, {} edges", permission.len(), permission.set_bits(), permission.num_edges());
    println!("{} ahead, {} at the end", permission.leading_ones(), permission.trailing_ones());

    let allowed = permission.and_not(&revocation)?;
    println!("runs {:?}", allowed.slices().collect::<Vec<_>>());
    for line in by_pit(&allowed)? {
        println!("{line}");
    }
    println!("truck 3: {}, truck 39: {}", allowed[3], allowed[39]);
    println!("truck 40: {:?}", allowed.get(TRUCKS));

    println!("fifth {:?}, last {:?}", allowed.nth_set_bit_idx(4, 0), allowed.nth_set_bit_idx_rev(0, TRUCKS));
    println!("trucks 16 to 47 as a number: {:#034b}", allowed.get_u32(16));
    println!("backwards {:?}", allowed.iter().rev().take(4).collect::<Vec<_>>());
    println!("words {:x?}", words(&allowed));

    println!("revoked in vain: {}", (&!&permission & &revocation).set_bits());
    println!("both {}, either {}", (&permission & &revocation).set_bits(), (&permission | &revocation).set_bits());
    println!("shared {}, {}", permission.num_intersections_with(&revocation)?, permission.intersects_with(&revocation)?);
    println!("as they were {}", allowed.or_not(&permission)? == !permission.and_not(&allowed)?);
    println!("by the later list {}", revocation.select(&mask_of(&[31])?, &permission)?.set_bits());
    println!("other lengths: {:?}", permission.and(&Bitmap::new_zeroed(38)?).ok().map(|mask| mask.len()));

    let mut runs: Vec<(usize, usize)> = permission.slices().collect();
    runs[1] = (runs[1].0 - 2, runs[1].1 + 2);
    let edited = from_runs(&runs)?;
    println!("edited {:?}, {}", edited.slices().collect::<Vec<_>>(), edited == permission);
    let granted = changed(&edited, 20, true)?;
    println!("granted {:?}", granted.slices().collect::<Vec<_>>());
    println!("a truck that is not there: {}", changed(&edited, TRUCKS, true) == Err(Refusal::OutsideMask));
    println!("a piece that is not there: {}", edited.sliced(30, 11) == Err(Refusal::OutsideMask));

    println!("gaps {:?}", validity(&[Some(1), None, Some(3)])?.map(|mask| mask.unset_bits()));
    println!("no gap {:?}", validity(&[Some(1), Some(3)])?.map(|mask| mask.unset_bits()));
    println!("of all {:?}", TrueIdxIter::new(3, None)?.collect::<Vec<_>>());
    let ones = Bitmap::new_with_value(true, 3)?;
    println!("{} of {}", ones.into_iter().filter(|flag| *flag).count(), 3);
    Ok(())
}
