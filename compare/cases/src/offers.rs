//! The search by windows, `next_and_not`, and dispatch's `offer`: windows that cursors cut, trucks before and after the cursor, no truck.

use crate::file::File;
use crate::patterns::{MAX, MOST, paint};
use crate::several::{OPTIONAL, TWO_SIZES, choices};
use crate::token::show;

const LENGTHS: [u64; 14] = [0, 1, 8, 31, 32, 33, 40, 63, 64, 65, 95, 96, 97, 129];
const ABSENT: &str = "0 0 0 ?";

/// Masks of `dispatch.rs` that fail each check; the first is absent, the second fails no check.
const FAULTS: [&str; 9] = [
    ABSENT,
    "1 3 70 ?",
    "1 4194305 70 ?",
    "1 3 4194305 ?",
    "1 3 254 ?",
    "1 3 158 ?",
    "1 3 70 71",
    "1 3 69 ?",
    "1 3 xffffffffffffffff xffffffffffffffff",
];

pub fn write(f: &mut File) {
    f.note("offers: every cursor, half of the trucks permitted and half revoked");
    f.lend('x', &paint(4, 18));
    f.lend('y', &paint(5, 18));
    for n in LENGTHS {
        for second in [format!("1 0,3 {n} ?"), ABSENT.to_string()] {
            f.ask(&format!("next_and_not 0..8 {n} ? {second} 0..{}", n + 2));
            f.ask(&format!("offer 1 0..8 {n} ? {second} 0..{}", n + 2));
        }
        f.ask(&format!("offer {ABSENT} 1 2 {n} ? 0..{}", n + 2));
        for cursor in [n.saturating_sub(1), n, n + 1, MOST, MOST + 1, 1 << 63, MAX] {
            f.ask(&format!("next_and_not 5 {n} ? 1 2 {n} ? {}", show(cursor)));
            f.ask(&format!("offer 1 5 {n} ? 1 2 {n} ? {}", show(cursor)));
            f.ask(&format!("offer {ABSENT} 1 2 {n} ? {}", show(cursor)));
            f.ask(&format!("offer {ABSENT} {ABSENT} {}", show(cursor)));
        }
    }
    single(f);
    none(f);
    refusals(f);
    limits(f);
    together(f);
}

/// Asks for one permitted truck, none revoked, at each place with each cursor: before it, in the window that it cuts, after it.
fn single(f: &mut File) {
    f.note("offers: one truck");
    f.lend('y', &[0; 16]);
    for truck in [0, 1, 30, 31, 32, 33, 63, 64, 69] {
        let mut bytes = vec![0; 10];
        bytes[(truck + 3) / 8] |= 1 << ((truck + 3) % 8);
        bytes[9] |= 0xFC; // after the 70 flags
        bytes[0] |= 0x07; // before them
        f.lend('x', &bytes);
        f.ask("next_and_not 3 70 ? 0 0 0 ? 0..72");
        f.ask("offer 1 3 70 ? 1 2 70 ? 0..72");
    }
}

/// Asks with every permitted truck revoked, and with no truck permitted.
fn none(f: &mut File) {
    f.note("offers: none");
    f.lend('x', &paint(9, 18));
    f.lend('y', &[0xFF; 18]);
    for n in [0, 31, 32, 33, 64, 65, 96, 128] {
        f.ask(&format!("next_and_not 3 {n} ? 1 2 {n} ? 0..{}", n + 2));
        f.ask(&format!("offer 1 3 {n} ? 1 2 {n} ? 0..{}", n + 2));
    }
    f.lend('x', &[0; 18]);
    f.ask("offer 1 3 129 ? 0 0 0 ? 0..131");
}

fn refusals(f: &mut File) {
    f.note("offers: refusals");
    f.lend('x', &paint(9, 32));
    f.lend('y', &paint(10, 20));
    for first in FAULTS {
        for second in FAULTS {
            for cursor in [0, 70, 71, MAX] {
                f.ask(&format!("offer {first} {second} {}", show(cursor)));
                if let Some(mask) = first.strip_prefix("1 ") {
                    f.ask(&format!("next_and_not {mask} {second} {}", show(cursor)));
                }
            }
        }
    }
}

/// Asks for trucks far past the cursor, over long masks, and at the flag limit.
fn limits(f: &mut File) {
    f.note("offers: long masks and the flag limit");
    f.lend_pattern('x', &[0, 0, 0, 0, 0, 0, 0, 0, 0, 0x10], 524_352);
    f.lend_pattern('y', &[0], 524_352);
    for n in [1023, 1024, 1025, 2049, 4096] {
        f.ask(&format!("next_and_not 5 {n} ? 1 64 {n} ? 0,1,31,32,33,{},{},{n},{}", n / 2, n - 1, n + 1));
    }
    f.lend_pattern('y', &[0, 0, 0, 0, 0, 0, 0, 0, 0, 0x10], 524_352);
    for n in [4096, MOST, MOST + 1] {
        for cursor in [0, 1, 32, 33, n - 1, n, n + 1] {
            f.ask(&format!("next_and_not 0 {n} ? 1 0 {n} ? {cursor}"));
            f.ask(&format!("offer 1 0 {n} ? 1 0 {n} ? {cursor}"));
            f.ask(&format!("offer 1 5 {n} ? 1 64 {n} ? {cursor}"));
        }
    }
}

/// Asks with several checks that fail at once; a cursor may be at the length.
fn together(f: &mut File) {
    f.note("offers: several checks at once");
    f.lend_pattern('x', &paint(8, 509), 524_352);
    f.lend_pattern('y', &paint(9, 509), 524_352);
    let place = OPTIONAL.replace("{64|70|6}", "{70|71|6}");
    choices(f, &format!("next_and_not {} {TWO_SIZES}", place.strip_prefix("1 ").expect("a first mask")));
    choices(f, &format!("offer {place} {TWO_SIZES}"));
    choices(f, "next_and_not {3|4194305|1} 70 {?|71|3} 0 0 0 ? {70|71|6} x:{524352|9|2}");
    choices(f, "offer 1 {3|4194305|1} 70 {?|71|3} 0 0 0 ? {70|71|6} x:{524352|9|2}");
    choices(f, "offer 0 0 0 ? 1 {3|4194305|1} 70 {?|71|3} xffffffffffffffff y:{524352|9|2}");
}
