//! The calls over bare spans: every start bit, length and address, spans past their bytes, far numbers, and the flag limit.

use crate::file::File;
use crate::patterns::{MAX, MOST, paint, turned};
use crate::token::{list, show};

const LENGTHS: [u64; 16] = [0, 1, 7, 8, 9, 31, 32, 33, 63, 64, 65, 127, 128, 129, 200, 320];
const FAR: [u64; 14] = [0, 3, 319, 320, 321, MOST - 1, MOST, MOST + 1, 1 << 61, 1 << 63, MAX - 63, MAX - 7, MAX - 2, MAX];
const COUNTS: [&str; 5] = ["count_zeros", "leading_zeros", "leading_ones", "trailing_zeros", "trailing_ones"];
/// Starts at which every length is asked for.
const WHOLE: [u64; 12] = [0, 1, 2, 3, 4, 5, 6, 7, 8, 63, 64, 65];
const TURNED: [u64; 16] = [0, 2, 3, 7, 8, 63, 64, 65, 66, 127, 128, 135, 192, 201, 202, 203];

pub fn write(f: &mut File) {
    f.note("spans: the aligned split");
    aligned(f);
    f.note("spans: the five counts");
    counts(f);
    f.note("spans: words of a span");
    chunks(f);
    f.note("spans: cut in two, windows of 32 flags");
    windows(f);
    f.note("spans: exactly in their bytes and one past them");
    edges(f);
    f.note("spans: the flag limit");
    limits(f);
}

fn aligned(f: &mut File) {
    f.lend('x', &paint(4, 40));
    for start in 0..8 {
        for (i, length) in LENGTHS.iter().enumerate() {
            f.ask(&format!("AlignedBitmapSlice::new {start} {length} {}", (start as usize + i) % 9));
        }
    }
    for start in WHOLE {
        f.ask(&format!("AlignedBitmapSlice::new {start} 0..300 0..9"));
    }
    f.ask(&format!("AlignedBitmapSlice::new 0..73 {} 0..9", list(&LENGTHS)));
    for size in ["x:40", "x:0"] {
        f.ask(&format!("AlignedBitmapSlice::new {} {} 7,8,{} {size}", list(&FAR), list(&FAR), show(MAX)));
    }
}

fn counts(f: &mut File) {
    for name in COUNTS {
        for kind in 0..5 {
            f.lend('x', &paint(kind, 40));
            for length in [0, 1, 9, 64, 65, 129, 200] {
                f.ask(&format!("{name} 3 {length} 5"));
            }
            f.ask(&format!("{name} 0..8 0..300 0,7"));
        }
        for (kind, flag) in [0, 1].iter().flat_map(|kind| TURNED.map(|flag| (*kind, flag))) {
            f.lend('x', &turned(kind, 40, flag));
            f.ask(&format!("{name} 3 200 5"));
            f.ask(&format!("{name} 0..8 {} 0..9", list(&LENGTHS)));
        }
        f.lend('x', &paint(5, 40));
        for address in 0..9 {
            f.ask(&format!("{name} 13 190 {address}"));
        }
        f.ask(&format!("{name} 0..72 {} 0..9", list(&LENGTHS)));
        f.ask(&format!("{name} {} {} 7,8 x:40,0", list(&FAR), list(&FAR)));
        for (start, length, address) in [(0, 0, 8), (MOST + 1, 0, 0), (MAX, 0, MAX), (0, 320, 8), (0, 321, 8), (MOST + 1, 1, 8)] {
            f.ask(&format!("{name} {} {length} {}", show(start), show(address)));
        }
    }
}

fn chunks(f: &mut File) {
    f.lend('x', &paint(6, 40));
    for start in 0..8 {
        f.ask(&format!("BitChunks::new {start} 0..330"));
        for length in [0, 63, 64, 65, 129, 200] {
            f.ask(&format!("BitChunks::new {start} {length}"));
            for _ in 0..=length / 64 {
                f.ask("BitChunks::next @3");
            }
            f.ask("remainder @3");
        }
    }
    for name in ["BitChunks::next", "remainder"] {
        f.ask(&format!("{name} {} 0..300 0..5", list(&WHOLE)));
        f.ask(&format!("{name} 0..73 {} 0..5", list(&LENGTHS)));
    }
    f.ask("BitChunksExact::new 0..330 x:0,1,8,9,40");
    f.ask("BitChunksExact::new 320");
    f.ask("BitChunksExact::new 321");
    for name in ["BitChunks::next", "remainder"] {
        for length in [0, 7, 9, 32, 63, 64, 65, 128] {
            for place in [0, length / 64, length / 64 + 1, length, length + 1, MAX] {
                f.ask(&format!("{name} 5 {length} {}", show(place)));
            }
            f.ask(&format!("{name} 5 {length} 0,1,2,{},{},{}", show(MOST + 1), show(1 << 58), show(MAX)));
        }
        f.ask(&format!("{name} {} {} 0,9,{} x:40,0", list(&FAR), list(&FAR), show(MAX)));
    }
    f.ask(&format!("BitChunks::new {} {} x:40,0", list(&FAR), list(&FAR)));
    f.ask(&format!("BitChunksExact::new {} x:40,0", list(&FAR)));
}

fn windows(f: &mut File) {
    f.lend('x', &paint(7, 40));
    for name in ["split_at_unchecked", "get_u32"] {
        for start in [0, 5] {
            for length in LENGTHS.into_iter().filter(|length| length + start <= 320) {
                for at in [0, length / 2, length.saturating_sub(1), length, length + 1, MAX] {
                    f.ask(&format!("{name} {start} {length} {}", show(at)));
                }
            }
        }
        for length in LENGTHS {
            f.ask(&format!("{name} 0..8 {length} 0..331"));
        }
        for start in FAR {
            f.ask(&format!("{name} {} {} {}", show(start), list(&FAR), list(&FAR)));
        }
    }
    f.ask("get_u32 3 200 0..240,xffffffffffffffe0,xffffffffffffffdf,xffffffffffffffff");
}

/// Asks every call over a span.
fn every(f: &mut File, start: u64, length: u64, address: u64) {
    let span = format!("{} {}", show(start), show(length));
    f.ask(&format!("AlignedBitmapSlice::new {span} {address}"));
    for name in COUNTS {
        f.ask(&format!("{name} {span} {address}"));
    }
    f.ask(&format!("BitChunks::new {span}"));
    let words = length / 64;
    let places = list(&[0, words.saturating_sub(1), words, length.saturating_add(1)]);
    let near = list(&[length.saturating_sub(1), length, length.saturating_add(1)]);
    for name in ["BitChunks::next", "remainder"] {
        f.ask(&format!("{name} {span} {}", show(words.saturating_sub(1))));
        f.ask(&format!("{name} {span} {places}"));
    }
    for name in ["split_at_unchecked", "get_u32"] {
        f.ask(&format!("{name} {span} {near}"));
    }
}

fn edges(f: &mut File) {
    f.lend('x', &paint(1, 1));
    for (start, length, address) in [(2, 6, 7), (2, 7, 7), (2, 6, 8), (2, 7, 8), (8, 0, 8), (9, 0, 0), (9, 0, 8)] {
        every(f, start, length, address);
    }
}

fn limits(f: &mut File) {
    for kind in [0, 1, 8] {
        f.lend_pattern('x', &paint(kind, if kind < 2 { 1 } else { 509 }), 524_352);
        for (i, start) in [0, 3, 64, MOST - 1, MOST, MOST + 1].into_iter().enumerate() {
            for (j, length) in [0, 64, MOST - 64, MOST - 1, MOST, MOST + 1].into_iter().enumerate() {
                if kind == 8 || length > MOST - 64 {
                    every(f, start, length, (7 * i as u64 + j as u64) % 6);
                }
            }
        }
        f.ask(&format!("BitChunksExact::new {},{}", MOST, MOST + 1));
        f.ask(&format!("split_at_unchecked {} 64 0,64,65", MOST - 63));
        f.ask(&format!("split_at_unchecked {} 64 0,64,65", MOST - 64));
    }
}
