//! The cost of calls of this crate, in nanoseconds: `cargo run --release --example costs`.
//!
//! Each row is the least of nine rounds. Half of the flags are ones, from a fixed generator.

use std::hint::black_box;
use std::time::Instant;

use poruwhina::{Bitmap, BitmapBuilder, Permission, Refusal, may_reassign};

const FLAGS: usize = 1_000_000;
const SHORT: usize = 40;
const CALLS: usize = 100_000;

/// Prints the cost of one of the `items` that `run` processes.
fn cost<T>(what: &str, items: usize, mut run: impl FnMut() -> T) {
    let nanoseconds = (0..9)
        .map(|_| {
            let begin = Instant::now();
            black_box(run());
            begin.elapsed().as_nanos()
        })
        .min()
        .expect("nine rounds");
    println!("{what:<32}{:>8.1}", nanoseconds as f64 / items as f64);
}

/// Prints the cost of a call that is too short to be measured by itself.
fn call_cost<T>(what: &str, mut call: impl FnMut() -> T) {
    cost(what, CALLS, || {
        for _ in 0..CALLS {
            black_box(call());
        }
    });
}

fn random_flags(length: usize) -> impl Iterator<Item = bool> {
    let mut state = 1_u64;
    (0..length).map(move |_| {
        state = state.wrapping_mul(6_364_136_223_846_793_005).wrapping_add(1_442_695_040_888_963_407);
        state >> 63 == 1
    })
}

fn pushed(flags: &[bool]) -> Result<Bitmap, Refusal> {
    let mut builder = BitmapBuilder::new();
    for &flag in flags {
        builder.push(flag)?;
    }
    Ok(builder.freeze())
}

fn sum_by_loop(mask: &Bitmap) -> usize {
    let mut sum = 0;
    for position in mask.true_idx_iter() {
        sum += position;
    }
    sum
}

fn main() -> Result<(), Refusal> {
    let flags: Vec<bool> = random_flags(FLAGS).collect();
    let mask = Bitmap::from(&flags);
    let short = mask.sliced(3, SHORT)?;
    let dense: Bitmap = (0..FLAGS).map(|i| i % 64 != 0).collect();

    cost("iter, per flag", FLAGS, || mask.iter().filter(|flag| *flag).count());
    cost("slices, per run", mask.slices().count(), || mask.slices().count());
    for (flags, mask) in [("half ones", &mask), ("63 in 64 ones", &dense)] {
        let mut out = vec![0; mask.set_bits()];
        let ones = out.len();
        cost(&format!("true_idx_iter, {flags}"), ones, || sum_by_loop(mask));
        cost(&format!("the same by sum, {flags}"), ones, || mask.true_idx_iter().sum::<usize>());
        cost(&format!("next_chunk, {flags}"), ones, || mask.true_idx_iter().next_chunk(&mut out));
    }
    cost("chunks, per word of 64", FLAGS / 64, || mask.chunks().fold(0, |a, b| a ^ b));
    cost("push, per flag", FLAGS, || pushed(&flags));
    call_cost("get", || black_box(&mask).get(FLAGS / 2));
    call_cost("may_reassign", || may_reassign(Permission::Mask(black_box(&mask)), Some(&mask), FLAGS / 2));
    call_cost("clone", || black_box(&mask).clone());
    call_cost("sliced, 40 flags", || black_box(&short).sliced(1, SHORT - 2));
    call_cost("and, 40 flags", || black_box(&short).and(black_box(&short)));
    cost("and, 1,000,000 flags", 1, || mask.and(black_box(&mask)));
    Ok(())
}
