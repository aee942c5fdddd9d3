//! Masks made, cut, counted and compared: counts of every kind, true and false, outputs of every size, the flag limit.

use crate::combinations::{self, combinations, masks};
use crate::file::File;
use crate::patterns::{MAX, MOST, paint, turned, whole, zeros};
use crate::token::{list, show};

const LENGTHS: [u64; 8] = [0, 1, 8, 63, 64, 65, 128, 129];
const FAR: [u64; 14] = [0, 2, 319, 320, 321, MOST - 1, MOST, MOST + 1, 1 << 61, 1 << 63, MAX - 63, MAX - 7, MAX - 2, MAX];

pub fn write(f: &mut File) {
    combinations::write(f);
    f.note("masks: slices");
    slices(f);
    f.note("masks: counted, edges, compared");
    asked(f);
    pairs(f);
    f.note("masks: made");
    making(f);
    f.note("masks: the flag limit");
    limits(f);
}

/// Returns the zero counts to give a mask of n flags: unknown, true, 0, n, others, and two that are never true.
pub fn brought(bytes: &[u8], start: u64, n: u64) -> Vec<String> {
    let mut counts = vec!["?".to_string()];
    let known = if (start + n) <= 8 * bytes.len() as u64 { zeros(bytes, start, n) } else { 0 };
    let mut numbers = vec![known, 0, n, n / 2, 1, n.saturating_sub(1), n % (1 << 32) + 1, MAX - 1];
    numbers.sort_unstable();
    numbers.dedup();
    counts.extend(numbers.into_iter().map(show));
    counts
}

/// Returns lengths of a slice around the border between recounted and unknown.
fn cuts(old: u64) -> Vec<u64> {
    let mut cuts = vec![0, 1, old.saturating_sub(33), old.saturating_sub(32), old.saturating_sub(31)];
    cuts.extend([old - old / 5, (old - old / 5).saturating_sub(1), old.saturating_sub(1), old, old + 1]);
    cuts.sort_unstable();
    cuts.dedup();
    cuts
}

fn slices(f: &mut File) {
    let bytes = paint(10, 32);
    f.lend('x', &bytes);
    for (old, n) in [(100, 68), (100, 67), (200, 160), (200, 159), (160, 128), (160, 127), (165, 132), (165, 131)] {
        for offset in [0, 1, old - n] {
            for count in [zeros(&bytes, 3, old), 1, old - 1] {
                f.ask(&format!("slice 3 {old} {count} {offset} {n}"));
            }
        }
    }
    for kind in [0, 1, 2, 3, 4, 10] {
        let bytes = paint(kind, 32);
        f.lend('x', &bytes);
        for old in [0, 1, 33, 64, 100, 160, 165, 200] {
            let mut offsets = vec![0, 1, 9, old / 2, old];
            offsets.sort_unstable();
            offsets.dedup();
            f.ask(&format!("slice 0..8 {old} {} {} {}", brought(&bytes, 3, old).join(","), list(&offsets), list(&cuts(old))));
            for count in brought(&bytes, 3, old) {
                f.ask(&format!("slice 3 {old} {count} 0 {old}"));
                f.ask(&format!("slice 3 {old} {count} {} {}", old / 3, old / 2));
                f.ask(&format!("slice 3 {old} {count} 1 {}", old.saturating_sub(2)));
            }
        }
    }
    f.ask(&format!("slice 3 100 {} {} {}", zeros(&bytes, 3, 100), list(&FAR), list(&FAR)));
    for offset in 0..8 {
        f.ask(&format!("slice {} 9 10 {offset} 0", MOST - 4));
    }
    for fault in
        ["3 254 ? 255 0", "3 254 255 0 4194305", "3 70 71 60 11", "3 70 71 4194305 1", "3 70 ? 60 11", "3 70 ? x1 xffffffffffffffff"]
    {
        f.ask(&format!("slice {fault}"));
    }
}

fn asked(f: &mut File) {
    for name in ["unset_bits", "num_edges"] {
        for kind in 0..5 {
            let bytes = paint(kind, 40);
            f.lend('x', &bytes);
            for n in LENGTHS {
                f.ask(&format!("{name} 3 {n} ?"));
                f.ask(&format!("{name} 0..8 {n} {}", brought(&bytes, 3, n).join(",")));
            }
            f.ask(&format!("{name} 0..8 0..200 ?"));
        }
        f.lend('x', &paint(11, 40));
        f.ask(&format!("{name} {} {} ?,0,{}", list(&FAR), list(&FAR), show(MAX)));
    }
}

fn pairs(f: &mut File) {
    let lengths = list(&LENGTHS);
    for name in ["eq", "num_intersections_with"] {
        f.lend('x', &paint(11, 40));
        for flag in [0, 3, 4, 66, 67, 68, 130, 131, 132, 319] {
            f.lend('y', &turned(11, 40, flag));
            f.ask(&format!("{name} 3 129 ? 3 129 ?"));
            for start in 0..8 {
                LENGTHS.iter().for_each(|n| f.ask(&format!("{name} {start} {n} ? {start} {n} ?")));
            }
        }
        for (first, second) in (0..5).flat_map(|first| (0..5).map(move |second| (first, second))) {
            let (x, y) = (paint(first, 40), paint(second, 40));
            f.lend('x', &x);
            f.lend('y', &y);
            f.ask(&format!("{name} 0,5 {lengths} ? 0,3 {lengths} ?,0"));
            for n in LENGTHS {
                f.ask(&format!("{name} 0..8 {n} {} 0,3,5 {n} ?,{n},{}", brought(&x, 3, n).join(","), n + 1));
                f.ask(&format!("{name} 1 {n} ? 6 {n} ?"));
            }
        }
        f.lend('y', &paint(4, 40));
        f.ask(&format!("{name} 0..8 0..200 ? 5 129 ?"));
    }
}

fn making(f: &mut File) {
    f.ask("Bitmap::new");
    f.lend('x', &paint(12, 40));
    for size in [0, 1, 8, 9, 16, 17] {
        for start in 0..8u64 {
            let end = (8 * size as u64).saturating_sub(start);
            for n in [end, end + 1] {
                f.ask(&format!("try_new {start} {n} x:{size}"));
            }
        }
        f.ask(&format!("try_new 0..8 0..140 x:{size}"));
    }
    f.ask(&format!("try_new {} {} x:40,0", list(&FAR), list(&FAR)));
    f.lend('o', &paint(1, 40));
    for n in LENGTHS {
        for size in [whole(n), whole(n).saturating_sub(1), whole(n) + 5, 0] {
            f.ask(&format!("new_zeroed {n} o:{size}"));
        }
    }
    f.ask("new_zeroed 0..330 o:0..41");
    for n in &FAR[4..] {
        f.ask(&format!("new_zeroed {}", show(*n)));
    }
}

fn limits(f: &mut File) {
    for letter in ['x', 'y', 'z'] {
        f.lend_pattern(letter, &paint(13, 509), 524_352);
    }
    f.lend_pattern('o', &paint(7, 251), 524_288);
    for (n, start) in [(MOST - 1, 0), (MOST, 0), (MOST, 5), (MOST + 1, 0), (64, MOST), (64, MOST + 1)] {
        f.ask(&format!("try_new {start} {n}"));
        for name in ["unset_bits", "num_edges"] {
            f.ask(&format!("{name} {start} {n} ?"));
        }
        for name in ["eq", "num_intersections_with"] {
            f.ask(&format!("{name} {start} {n} ? {} {n} ?", start / 2));
        }
        for (name, flag) in combinations() {
            f.ask(&format!("{name} {}{flag}", masks(name, [&show(start), &show(start / 2), "3"], &show(n), ["?"; 3])));
        }
        f.ask(&format!("slice {start} {n} ? 1 {}", MOST - 1));
    }
    for n in [MOST, MOST + 1] {
        f.ask(&format!("new_zeroed {n} o:524287"));
        f.ask(&format!("new_zeroed {n}"));
        f.ask(&format!("not 0 {n} ? o:524287"));
    }
    f.ask(&format!("slice 0 {MOST} {} 1 {}", zeros(&paint(13, 509).repeat(1031), 0, MOST), MOST - 2));
    f.lend('o', &[]);
}
