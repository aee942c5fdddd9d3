//! Cursors and searches: every place of spans at every start bit, walks to the end, many positions at once, refusals, the flag limit.

use crate::file::File;
use crate::patterns::{MAX, MOST, paint, stripes};
use crate::token::{list, show};

const STARTS: [u64; 10] = [0, 1, 2, 3, 4, 5, 6, 7, 69, 131];
const LENGTHS: [u64; 14] = [0, 1, 7, 8, 9, 31, 32, 33, 63, 64, 65, 127, 128, 129];
const STEPS: [&str; 4] = ["SlicesIterator::next", "BitmapIter::next", "take_leading_ones", "take_leading_zeros"];

/// Cursors and arguments that fail each check, by itself and with others, over 32 bytes; the first two fail no check.
const FAULTS: [(u64, u64, u64); 16] = [
    (3, 70, 5),
    (3, 70, 70),
    (3, 70, 71),
    (3, 70, MAX),
    (MOST + 1, 70, 5),
    (3, MOST + 1, 5),
    (3, 254, 5),
    (3, 254, 255),
    (MOST + 1, 70, 71),
    (250, 7, 9),
    (256, 0, 0),
    (256, 0, 1),
    (257, 0, 0),
    (MOST, MOST, MOST + 1),
    (3, MAX, MAX),
    (MAX, 3, 2),
];

pub fn write(f: &mut File) {
    f.note("cursors: the reference's examples");
    examples(f);
    f.note("cursors: every place");
    places(f);
    f.note("cursors: walks from the first place to the last");
    walks(f);
    f.note("cursors: positions, many at once");
    many(f);
    f.note("cursors: flags by their number");
    nth(f);
    f.note("searches");
    searches(f);
    f.note("cursors and searches: refusals");
    refusals(f);
    f.note("cursors and searches: the flag limit");
    limits(f);
}

fn pattern(kind: u64, size: u64) -> Vec<u8> {
    if kind == 4 { stripes(size) } else { paint(kind, size) }
}

/// Returns arguments at and around the ends of a span.
fn near(length: u64) -> String {
    let mut near = vec![0, 1, length / 3, length / 2, length.saturating_sub(1), length, length.saturating_add(1), MAX];
    near.sort_unstable();
    near.dedup();
    list(&near)
}

fn examples(f: &mut File) {
    f.lend('x', &[0x2D]);
    f.ask("SlicesIterator::new 0 6 2");
    for _ in 0..4 {
        f.ask("SlicesIterator::next @3");
    }
    f.ask("nth_set_bit_idx 0 6 2 0");
    f.ask("nth_set_bit_idx 0 6 4 0");
    f.ask("nth_set_bit_idx_rev 0 6 1 5");
    f.ask("nth_set_bit_idx_rev 0 6 3 900");
}

fn places(f: &mut File) {
    let starts = list(&STARTS);
    for kind in 0..6 {
        f.lend('x', &pattern(kind, 40));
        for n in LENGTHS {
            for name in STEPS {
                f.ask(&format!("{name} {starts} {n} 0..{}", n + 2));
            }
            f.ask(&format!("TrueIdxIter::next {starts} {n} 0..{} 0,1", n + 2));
        }
    }
    f.lend('x', &pattern(4, 40));
    for (i, start) in STARTS.into_iter().enumerate() {
        for n in [1, 8, 65, 129] {
            for place in [0, n / 3, n - 1, n, n + 1] {
                f.ask(&format!("{} {start} {n} {place}", STEPS[i % 4]));
                f.ask(&format!("TrueIdxIter::next {start} {n} {place} {}", i % 2));
            }
        }
    }
}

/// Makes each cursor and moves it to its end, with a call past it.
fn walks(f: &mut File) {
    f.lend('x', &pattern(4, 40));
    for start in STARTS {
        for n in [0, 64, 129] {
            f.ask(&format!("SlicesIterator::new {start} {n} ?"));
            walk(f, "SlicesIterator::next @3", 12);
            f.ask(&format!("BitmapIter::new {start} {n}"));
            walk(f, "take_leading_ones @3", 2);
            walk(f, "take_leading_zeros @3", 2);
            walk(f, "BitmapIter::next @3", 3);
            walk(f, "nth @3 4", 12);
            for mask in [format!("1 {start} {n} ?"), "0 0 0 ?".to_string()] {
                f.ask(&format!("TrueIdxIter::new {n} {mask}"));
                walk(f, "TrueIdxIter::next @4", 8);
            }
        }
    }
}

fn walk(f: &mut File, step: &str, most: usize) {
    for _ in 0..most {
        f.ask(step);
    }
}

fn many(f: &mut File) {
    f.lend_numbers(&[7; 66]);
    for kind in 0..6 {
        f.lend('x', &pattern(kind, 40));
        for n in LENGTHS {
            let mut places = vec![0, 1, n / 3, n / 2 + 1, n.saturating_sub(1), n, n + 1];
            places.sort_unstable();
            places.dedup();
            f.ask(&format!("next_chunk 0,1,69 {n} {} 0,1 i:0,1,2,31,64,65", list(&places)));
        }
    }
    f.lend_numbers(&[7; 140]);
    for kind in 0..6 {
        f.lend('x', &pattern(kind, 40));
        f.ask("next_chunk 3 64,127,128,129 0,40 0,1 i:63,64,65,127,128,129,132");
    }
    f.lend_numbers(&[7; 5]);
    f.lend('x', &pattern(4, 40));
    for start in STARTS {
        for size in 0..4 {
            for n in [0, 64, 129] {
                f.ask(&format!("TrueIdxIter::new {n} 1 {start} {n} ?"));
                walk(f, &format!("next_chunk @4 i:{size}"), 4);
            }
        }
        f.ask(&format!("next_chunk {start} 0..130 0,1,2,9 0,1 i:0..6"));
    }
    f.lend('x', &paint(7, 32));
    for (start, n, place) in FAULTS {
        for masked in 0..2 {
            let cursor = format!("{} {} {} {masked}", show(start), show(n), show(place));
            f.ask(&format!("next_chunk {cursor} i:3"));
            f.ask(&format!("next_chunk {cursor} x:0 i:3"));
        }
    }
}

fn nth(f: &mut File) {
    f.lend('x', &paint(6, 40));
    for n in LENGTHS {
        f.ask(&format!("nth {} {n} {} {}", list(&STARTS), near(n), near(n)));
        f.ask(&format!("nth 0,5 {n} 0..{} 0..{}", n.min(40) + 2, n.min(40) + 2));
        f.ask(&format!("nth 3 {n} {} {}", n / 3, n / 2));
        f.ask(&format!("nth 3 {n} {} {}", n / 3, n - n / 3));
        f.ask(&format!("nth 3 {n} {} {}", n / 3, show(MAX)));
    }
}

fn searches(f: &mut File) {
    let starts = list(&STARTS);
    for name in ["nth_set_bit_idx", "nth_set_bit_idx_rev"] {
        for kind in 0..6 {
            f.lend('x', &pattern(kind, 40));
            for n in LENGTHS {
                let which: Vec<u64> = (0..n + 2).filter(|k| n < 10 || k % 13 == 0 || *k + 2 > n).collect();
                let starts = if n < 70 { starts.as_str() } else { "0,1,7,69" };
                f.ask(&format!("{name} {starts} {n} {} 0..{},{}", list(&which), n + 2, show(MAX)));
                f.ask(&format!("{name} 3 {n} {} {}", n / 4, n / 3));
            }
        }
        f.lend('x', &pattern(4, 40));
        for (i, start) in STARTS.into_iter().enumerate() {
            f.ask(&format!("{name} {start} 129 0..131 {}", near(129)));
            for n in LENGTHS {
                f.ask(&format!("{name} {start} {n} {} {}", near(n), near(n)));
                f.ask(&format!("{name} {start} {n} {i} {}", if name == "nth_set_bit_idx" { 0 } else { n }));
                f.ask(&format!("{name} {start} {n} 1 {}", n / 2));
            }
        }
    }
}

fn refusals(f: &mut File) {
    f.lend('x', &paint(7, 32));
    for (start, n, place) in FAULTS {
        let (span, place) = (format!("{} {}", show(start), show(n)), show(place));
        for size in ["x:32", "x:0"] {
            for name in STEPS {
                f.ask(&format!("{name} {span} {place} {size}"));
            }
            for number in ["0", "xffffffffffffffff"] {
                f.ask(&format!("nth {span} {place} {number} {size}"));
            }
            for masked in 0..2 {
                f.ask(&format!("TrueIdxIter::next {span} {place} {masked} {size}"));
            }
            for name in ["nth_set_bit_idx", "nth_set_bit_idx_rev"] {
                f.ask(&format!("{name} {span} 0 {place} {size}"));
                f.ask(&format!("{name} {span} {place} 70 {size}"));
            }
            f.ask(&format!("BitmapIter::new {span} {size}"));
        }
        let more = n.saturating_add(1);
        for count in ["?".to_string(), "0".to_string(), show(n), show(more), show(MAX)] {
            f.ask(&format!("SlicesIterator::new {span} {count}"));
            for stated in [n, n.saturating_sub(1), more, MOST + 1] {
                f.ask(&format!("TrueIdxIter::new {} 1 {span} {count}", show(stated)));
            }
        }
    }
    for stated in [0, 70, MOST, MOST + 1, MAX] {
        f.ask(&format!("TrueIdxIter::new {} 0 0 0 ?", show(stated)));
        f.ask(&format!("TrueIdxIter::new {} 0 0 0 ? x:0", show(stated)));
        f.ask(&format!("BitmapIter::new {} 0 x:32,0", show(stated)));
    }
    f.ask("BitmapIter::new 0..8 0..260");
    f.ask("SlicesIterator::new 0..8 0..260 ?,0,9");
    f.ask("TrueIdxIter::new 0,1,63,64,250 1 0..8 0,1,63,64,250 ?,0,9");
}

fn limits(f: &mut File) {
    f.lend_numbers(&[7; 3]);
    for kind in [0, 1, 8] {
        f.lend_pattern('x', &paint(kind, if kind < 2 { 1 } else { 509 }), 524_352);
        for (start, n) in [(0, MOST - 1), (5, MOST), (64, MOST), (0, MOST + 1), (MOST, 65), (MOST + 1, 64)] {
            let places = list(&[0, n / 2, n - 1, n, n + 1]);
            for name in STEPS {
                f.ask(&format!("{name} {start} {n} {places}"));
            }
            f.ask(&format!("nth {start} {n} {places} 0,{},{}", n / 2, show(MAX)));
            f.ask(&format!("TrueIdxIter::next {start} {n} {places} 0,1"));
            f.ask(&format!("next_chunk {start} {n} {places} 0,1"));
            for name in ["nth_set_bit_idx", "nth_set_bit_idx_rev"] {
                f.ask(&format!("{name} {start} {n} 0,{},{} {}", n / 3, show(MAX), near(n)));
                f.ask(&format!("{name} {start} {n} {} {}", n / 5, n / 2));
            }
            f.ask(&format!("BitmapIter::new {start} {n}"));
            f.ask(&format!("SlicesIterator::new {start} {n} ?"));
            f.ask(&format!("TrueIdxIter::new {n} 1 {start} {n} ?"));
        }
    }
}
