//! A day at dispatch in the names of polars-arrow 0.55.2. After moving, the program is `bindings/rust/examples/moved.rs`, and prints the
//! same lines; `docs/MIGRATING.md` explains each change.

use std::panic::{AssertUnwindSafe, catch_unwind};

use original as polars_arrow;
use polars_arrow::bitmap::bitmask::BitMask;
use polars_arrow::bitmap::iterator::TrueIdxIter;
use polars_arrow::bitmap::utils::SlicesIterator;
use polars_arrow::bitmap::{Bitmap, BitmapBuilder, MutableBitmap, and_not, or_not};

const TRUCKS: usize = 40;
/// The pits, each with its first truck and its number of trucks.
const PITS: [(&str, usize, usize); 3] = [("north", 0, 16), ("south", 16, 14), ("west", 30, 10)];

/// Reads a stored mask.
fn read(bytes: Vec<u8>, trucks: usize) -> Option<Bitmap> {
    Bitmap::try_new(bytes, trucks).ok()
}

/// Returns the mask of these trucks.
fn mask_of(trucks: &[usize]) -> Bitmap {
    let mut mask = MutableBitmap::from_len_zeroed(TRUCKS);
    for &truck in trucks {
        mask.set(truck, true);
    }
    mask.freeze()
}

/// Returns the mask with one truck granted or revoked.
fn changed(mask: &Bitmap, truck: usize, permitted: bool) -> Bitmap {
    let mut changed = mask.clone().make_mut();
    changed.set(truck, permitted);
    changed.freeze()
}

/// Returns the mask with these runs of ones.
fn from_runs(runs: &[(usize, usize)]) -> Bitmap {
    let mut builder = BitmapBuilder::with_capacity(TRUCKS);
    for &(start, length) in runs {
        builder.extend_constant(start - builder.len(), false);
        builder.extend_constant(length, true);
    }
    builder.extend_constant(TRUCKS - builder.len(), false);
    builder.freeze()
}

/// Returns the trucks of each pit that may be reassigned.
fn by_pit(allowed: &Bitmap) -> Vec<String> {
    let pits = PITS.iter().map(|&(name, first, count)| {
        let pit = allowed.clone().sliced(first, count);
        let trucks: Vec<usize> = pit.true_idx_iter().map(|truck| first + truck).collect();
        format!("{name}: {} of {count}: {trucks:?}", pit.set_bits())
    });
    pits.collect()
}

/// Returns the flags as words of 64, the last one padded with zeros.
fn words(mask: &Bitmap) -> Vec<u64> {
    let mut chunks = mask.chunks::<u64>();
    let whole: Vec<u64> = chunks.by_ref().collect();
    whole.into_iter().chain((chunks.remainder_len() > 0).then(|| chunks.remainder())).collect()
}

/// Returns the validity that Arrow wants of a list with gaps.
fn validity(list: &[Option<u32>]) -> Option<Bitmap> {
    let mut builder = BitmapBuilder::new();
    for entry in list {
        builder.push(entry.is_some());
    }
    builder.into_opt_validity()
}

/// Returns what a call returns, or none if it panics.
fn unless_it_panics<T>(call: impl FnOnce() -> T) -> Option<T> {
    catch_unwind(AssertUnwindSafe(call)).ok()
}

fn main() {
    std::panic::set_hook(Box::new(|_| ())); // the panics below are expected

    let permission = read(vec![0xFF, 0xFF, 0x0F, 0xFF, 0xFF], TRUCKS).expect("five bytes for forty trucks");
    println!("too few bytes: {}", read(vec![0xFF], TRUCKS).is_none());
    let revocation = mask_of(&[3, 5, 31]);
    println!("{} trucks, {} permitted, {} edges", permission.len(), permission.set_bits(), permission.num_edges());
    println!("{} ahead, {} at the end", permission.leading_ones(), permission.trailing_ones());

    let allowed = and_not(&permission, &revocation);
    println!("runs {:?}", SlicesIterator::new(&allowed).collect::<Vec<_>>());
    for line in by_pit(&allowed) {
        println!("{line}");
    }
    println!("truck 3: {}, truck 39: {}", allowed.get_bit(3), allowed.get_bit(39));
    println!("truck 40: {:?}", unless_it_panics(|| allowed.get_bit(TRUCKS)));

    let flags = BitMask::from_bitmap(&allowed);
    println!("fifth {:?}, last {:?}", flags.nth_set_bit_idx(4, 0), flags.nth_set_bit_idx_rev(0, TRUCKS));
    println!("trucks 16 to 47 as a number: {:#034b}", flags.get_u32(16));
    println!("backwards {:?}", allowed.iter().rev().take(4).collect::<Vec<_>>());
    println!("words {:x?}", words(&allowed));

    println!("revoked in vain: {}", (&!&permission & &revocation).set_bits());
    println!("both {}, either {}", (&permission & &revocation).set_bits(), (&permission | &revocation).set_bits());
    println!("shared {}, {}", permission.num_intersections_with(&revocation), permission.intersects_with(&revocation));
    println!("as they were {}", or_not(&allowed, &permission) == !&and_not(&permission, &allowed));
    println!("by the later list {}", revocation.select(&mask_of(&[31]), &permission).set_bits());
    println!("other lengths: {:?}", unless_it_panics(|| &permission & &Bitmap::new_zeroed(38)).map(|mask| mask.len()));

    let mut runs: Vec<(usize, usize)> = SlicesIterator::new(&permission).collect();
    runs[1] = (runs[1].0 - 2, runs[1].1 + 2);
    let edited = from_runs(&runs);
    println!("edited {:?}, {}", SlicesIterator::new(&edited).collect::<Vec<_>>(), edited == permission);
    let granted = changed(&edited, 20, true);
    println!("granted {:?}", SlicesIterator::new(&granted).collect::<Vec<_>>());
    println!("a truck that is not there: {}", unless_it_panics(|| changed(&edited, TRUCKS, true)).is_none());
    println!("a piece that is not there: {}", unless_it_panics(|| edited.clone().sliced(30, 11)).is_none());

    println!("gaps {:?}", validity(&[Some(1), None, Some(3)]).map(|mask| mask.unset_bits()));
    println!("no gap {:?}", validity(&[Some(1), Some(3)]).map(|mask| mask.unset_bits()));
    println!("of all {:?}", TrueIdxIter::new(3, None).collect::<Vec<_>>());
    let ones = Bitmap::new_with_value(true, 3);
    println!("{} of {}", ones.into_iter().filter(|flag| *flag).count(), 3);
}
