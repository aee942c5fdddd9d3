//! The calls on words, and the loops over them: short and long stretches, at every start, past their bytes, and in outputs too short.

use crate::file::File;
use crate::patterns::{MAX, PLACES, WORDS, paint, turned, whole};
use crate::token::{list, show};

const STARTS: [u64; 6] = [0, 1, 3, 7, 8, 64];
const FAR_STARTS: [u64; 7] = [MAX, MAX - 7, MAX - 8, MAX - 63, MAX - 64, 1 << 63, 1 << 61];
const NEAR_LENGTHS: [u64; 15] = [0, 1, 7, 8, 9, 31, 32, 33, 63, 64, 65, 127, 128, 129, 200];
const FAR_LENGTHS: [u64; 5] = [MAX, MAX - 1, MAX - 62, MAX - 63, 1 << 63];
const SIZES: [u64; 8] = [0, 1, 8, 9, 16, 17, 25, 40];
const FLAGS: [u64; 12] = [0, 1, 7, 8, 63, 64, 127, 128, 199, 200, 319, 320];

pub fn write(f: &mut File) {
    f.note("words: one word, two and three");
    single_words(f);
    f.note("words: loads and stores");
    loads(f);
    stores(f);
    f.note("words: stretches combined, copied and filled");
    combining(f);
    combining_far(f);
    copying(f);
    filling(f);
    f.note("words: stretches counted and compared");
    counting(f);
    comparing(f);
    f.note("words: long stretches");
    long(f);
}

fn lengths() -> String {
    format!("{},{}", list(&NEAR_LENGTHS), list(&FAR_LENGTHS))
}

/// Asks for the last set bit of a word, for the one past it, and for one past any word's.
fn last_set_bit(f: &mut File, name: &str, word: u64) {
    let ones = word.count_ones();
    for n in [ones.saturating_sub(1), ones, 65] {
        f.ask(&format!("{name} {} {n}", show(word)));
    }
}

fn single_words(f: &mut File) {
    let (words, places) = (list(&WORDS), list(&PLACES));
    for flag in 0..2 {
        f.ask(&format!("constant_word {flag}"));
        f.ask(&format!("constant_flags {flag} 0..67,{places}"));
        for place in PLACES {
            f.ask(&format!("constant_flags {flag} {}", show(place)));
        }
        for name in ["leading_in_word", "trailing_in_word"] {
            f.ask(&format!("{name} {flag} {words} 0..67,{places}"));
            f.ask(&format!("{name} {flag} {} 63", show(WORDS[6])));
        }
    }
    for (i, &word) in WORDS.iter().enumerate() {
        let word = show(word);
        f.ask(&format!("ones_in_word {word}"));
        f.ask(&format!("not_word {word}"));
        for name in ["low_flags", "shr_or_zero", "shl_or_zero", "ones_below", "none_from"] {
            f.ask(&format!("{name} {word} {}", PLACES[i]));
            f.ask(&format!("{name} {word} 0..67,{places}"));
        }
        f.ask(&format!("concat_low {word} 0..67,{places} {words}"));
        for place in PLACES {
            f.ask(&format!("merge_reversed {word} {} {}", show(WORDS[(3 * i + 1) % 10]), show(place)));
            f.ask(&format!("nth_set_bit_u64 {word} {}", show(place)));
        }
        f.ask(&format!("merge_reversed {word} {words} 0..67"));
        f.ask(&format!("nth_set_bit_u64 {word} 0..67,xffffffff,{places}"));
        f.ask(&format!("nth_set_bit_u32 {} 0..35,x80000000,xffffffff", WORDS[i] % (1 << 32)));
        f.ask(&format!("nth_set_bit_u32 {} {}", WORDS[i] % (1 << 32), 3 * i));
        last_set_bit(f, "nth_set_bit_u64", WORDS[i]);
        last_set_bit(f, "nth_set_bit_u32", WORDS[i] % (1 << 32));
    }
    let single: Vec<u64> = (0..64).map(|bit| 1 << bit).collect();
    f.ask(&format!("nth_set_bit_u64 {} 0,1", list(&single)));
    f.ask(&format!("nth_set_bit_u32 {} 0,1", list(&single[..32])));
    for name in ["and_word", "and_not_word", "or_word", "or_not_word", "xor_word"] {
        f.ask(&format!("{name} {} {}", show(WORDS[6]), show(WORDS[9])));
        f.ask(&format!("{name} {words} {words}"));
    }
    f.ask(&format!("select_word {words} {words} {words}"));
    f.ask(&format!("combine_word 0..7 {words} {words} {words}"));
    for op in 0..7 {
        f.ask(&format!("combine_word {op} {} {} {}", show(WORDS[6]), show(WORDS[9]), show(WORDS[3])));
    }
}

fn loads(f: &mut File) {
    for kind in [1, 4] {
        f.lend('x', &paint(kind, 17));
        for size in 0..10 {
            f.ask(&format!("load_padded_le_u64 x:{size}"));
        }
        f.ask("load_padded_le_u64 x:0..18");
        f.ask(&format!("word_from 0..201,{},{} x:0..18", list(&PLACES), list(&FAR_STARTS)));
        f.ask(&format!("flag_at 0..140,{},{} x:0..18", list(&PLACES), list(&FAR_STARTS)));
        f.ask(&format!("byte_word 0..20,{},{} x:0..18", show(1 << 61), show(MAX)));
    }
    for bit in [0, 1, 7, 8, 72, 73, 135, 136] {
        f.ask(&format!("word_from {bit}"));
        f.ask(&format!("byte_word {}", bit / 8));
        f.ask(&format!("flag_at {bit}"));
    }
}

fn stores(f: &mut File) {
    f.lend('o', &paint(5, 9));
    for size in 0..10 {
        f.ask(&format!("store_le_u64 {} o:{size}", show(WORDS[6])));
    }
    f.ask(&format!("store_le_u64 {} o:0..10", list(&WORDS)));
    f.lend('o', &paint(5, 17));
    let places = format!("0..19,x2000000000000000,x2000000000000001,{},{}", show(MAX - 7), show(MAX));
    for name in ["store_at", "store_whole"] {
        for at in [0, 1, 7, 8, 9, 10, 16, 17, 18] {
            f.ask(&format!("{name} {at} {}", show(WORDS[6])));
        }
        f.ask(&format!("{name} {places} {} o:0,1,8,9,16,17", list(&[WORDS[6], WORDS[1]])));
    }
}

/// Returns three starts that differ.
fn near(i: usize) -> String {
    format!("{} {} {}", STARTS[i], STARTS[(i + 1) % 6], STARTS[(i + 2) % 6])
}

/// Returns three sizes that differ.
fn sizes(j: usize) -> String {
    format!("x:{} y:{} z:{}", SIZES[j], SIZES[(j + 1) % 8], SIZES[(j + 2) % 8])
}

/// Returns output sizes: no byte, exactly the flags' bytes or words, one byte fewer, and more.
fn rooms(length: u64) -> String {
    let (flags, words) = (length.div_ceil(8), whole(length));
    let mut rooms = vec![0, flags, flags.saturating_sub(1), words, words.saturating_sub(1), words + 5];
    rooms.sort_unstable();
    rooms.dedup();
    list(&rooms)
}

fn combining(f: &mut File) {
    for (letter, kind) in [('x', 4), ('y', 5), ('z', 6), ('o', 7)] {
        f.lend(letter, &paint(kind, 40));
    }
    for op in 0..7 {
        for i in 0..6 {
            for length in [0, 1, 8, 63, 64, 65, 128, 200] {
                f.ask(&format!("combine {op} {} {length}", near(i)));
            }
            f.ask(&format!("combine {op} {} {}", near(i), list(&NEAR_LENGTHS)));
        }
    }
    let starts = list(&STARTS);
    for length in NEAR_LENGTHS {
        for size in [40, 25, 9] {
            f.ask(&format!("combine 0..7 {starts} {starts} 0,3 {length} x:{size} y:{size} z:{size} o:{}", rooms(length)));
        }
    }
    for i in [0, 2, 4] {
        for j in 0..8 {
            f.ask(&format!("combine 0..7 {} 65,200 {}", near(i), sizes(j)));
        }
    }
}

/// Returns three starts: all of them far, only the second, or none.
fn far(i: usize, which: usize) -> String {
    let later = |k: usize| show(FAR_STARTS[(i + k).min(6)]);
    match which {
        0 => format!("{} {} {}", later(0), later(1), later(2)),
        1 => format!("3 {} 0", later(0)),
        _ => format!("{i} 8 64"),
    }
}

fn combining_far(f: &mut File) {
    f.lend('o', &paint(7, 24));
    for which in 0..3 {
        for i in 0..7 {
            f.ask(&format!("combine 0..7 {} 65,{} o:20", far(i, which), list(&FAR_LENGTHS)));
        }
    }
}

fn copying(f: &mut File) {
    f.lend('x', &paint(8, 40));
    f.lend('o', &paint(7, 40));
    for start in STARTS {
        for length in NEAR_LENGTHS {
            f.ask(&format!("copy {start} {length} o:{}", whole(length) + 5));
            f.ask(&format!("copy_count {start} {length} x:25 o:{}", length.div_ceil(8).saturating_sub(1)));
        }
    }
    for name in ["copy", "copy_count"] {
        for length in NEAR_LENGTHS {
            f.ask(&format!("{name} {} {length} x:{} o:{}", list(&STARTS), list(&SIZES), rooms(length)));
        }
        f.ask(&format!("{name} {} {} x:9 o:20", list(&FAR_STARTS), lengths()));
        f.ask(&format!("{name} {} {} x:9 o:20", list(&STARTS), list(&FAR_LENGTHS)));
    }
}

fn filling(f: &mut File) {
    for length in NEAR_LENGTHS {
        for flag in 0..2 {
            f.ask(&format!("fill {flag} {length}"));
            f.ask(&format!("fill {flag} {length} o:{}", rooms(length)));
            f.ask(&format!("fill_whole {flag} {} o:{}", length / 64, rooms(length)));
        }
    }
    for flag in 0..2 {
        f.ask(&format!("fill_whole {flag} 0..7 o:{}", list(&SIZES)));
        f.ask(&format!("fill_whole {flag} 2"));
        for name in ["fill", "fill_whole"] {
            f.ask(&format!("{name} {flag} {} o:{}", list(&FAR_LENGTHS), list(&SIZES)));
        }
    }
}

fn counting(f: &mut File) {
    for kind in [1, 4] {
        f.lend('x', &paint(kind, 40));
        for start in STARTS {
            f.ask(&format!("count_ones {start} 200"));
        }
        f.ask(&format!("count_ones {},{} {} x:{}", list(&STARTS), list(&FAR_STARTS), lengths(), list(&SIZES)));
    }
    for (letter, kind) in [('x', 9), ('y', 10), ('z', 11)] {
        f.lend(letter, &paint(kind, 40));
    }
    for name in ["count_ones_of", "any_set"] {
        for i in 0..6 {
            f.ask(&format!("{name} {i} {} 200", near(i)));
            for j in 0..8 {
                f.ask(&format!("{name} 0..7 {} {} {}", near(i), lengths(), sizes(j)));
            }
        }
        for (which, i) in (0..3).flat_map(|which| (0..7).map(move |i| (which, i))) {
            f.ask(&format!("{name} 0..7 {} {}", far(i, which), lengths()));
        }
    }
    f.lend('z', &paint(0, 40));
    for kind in [0, 1] {
        f.lend('y', &paint(kind, 40));
        for flag in FLAGS {
            f.lend('x', &turned(0, 40, flag));
            for starts in ["0 3", "1 1", "64 8"] {
                f.ask(&format!("any_set 0..7 {starts} 0 {}", lengths()));
            }
        }
    }
}

fn comparing(f: &mut File) {
    for (kind, other) in [(12, "equal"), (2, "alternating")] {
        f.lend('x', &paint(kind, 40));
        for flag in FLAGS {
            f.lend('y', &turned(kind, 40, flag));
            f.ask("equal 0 0 200");
            if other == "equal" {
                STARTS.iter().for_each(|start| f.ask(&format!("equal {start} {start} {}", lengths())));
            } else {
                f.ask(&format!("equal {} {} {}", list(&STARTS), list(&STARTS), lengths()));
            }
        }
    }
    for kind in [1, 0] {
        f.lend('x', &paint(kind, 40));
        f.lend('y', &paint(kind, 40));
        for (first, second) in [(0, 0), (1, 8), (64, 3), (MAX, 7), (0, 1 << 63), (MAX - 7, 1 << 61)] {
            let (first, second, sizes) = (show(first), show(second), list(&SIZES));
            f.ask(&format!("equal {first} {second} {} x:{sizes} y:{sizes}", lengths()));
        }
    }
}

fn long(f: &mut File) {
    f.lend('y', &paint(1, 1200));
    f.lend('z', &paint(0, 1200));
    for flag in [4095, 4096, 4097, 4607, 8191, 8192, 8193, 9599] {
        f.lend('x', &turned(0, 1200, flag));
        for start in STARTS {
            let lengths = list(&[flag - start, flag - start + 1, 9600, MAX]);
            f.ask(&format!("any_set 0..7 {start} {start} 3 {lengths}"));
            f.ask(&format!("count_ones_of 0..7 {start} 0 1 {lengths}"));
            f.ask(&format!("count_ones {start} {lengths}"));
            f.ask(&format!("equal {start} 0 {lengths} y:0"));
        }
    }
    for (letter, kind) in [('x', 13), ('y', 14), ('z', 15)] {
        f.lend(letter, &paint(kind, 1200));
    }
    f.lend('o', &paint(7, 1250));
    let lengths = list(&[4096, 4097, 9000, 9599, 9664, MAX]);
    for (i, start) in STARTS.iter().enumerate() {
        f.ask(&format!("count_ones_of 0..7 {} {lengths}", near(i)));
        f.ask(&format!("combine 0..7 {} {lengths} o:1245", near(i)));
        f.ask(&format!("combine {i} {} 9600", near(i)));
        f.ask(&format!("count_ones {start} {lengths}"));
        f.ask(&format!("copy {start} {lengths}"));
        f.ask(&format!("copy_count {start} {lengths}"));
    }
    f.ask(&format!("equal {} {} {lengths}", list(&STARTS), list(&STARTS)));
    f.ask(&format!("fill 0,1 {lengths}"));
    f.lend('y', &paint(13, 1200));
    f.ask(&format!("equal 0..8 0..8 {lengths}"));
}
