//! One flag of two masks, either of which may be absent: `and_not_at` of masks, and dispatch's `may_reassign`.

use crate::file::File;
use crate::patterns::{MAX, MOST, paint};
use crate::several::{OPTIONAL, TWO_SIZES, choices};
use crate::token::show;

const LENGTHS: [u64; 8] = [0, 1, 8, 40, 63, 64, 65, 129];
const NAMES: [&str; 2] = ["and_not_at", "may_reassign"];
const ABSENT: &str = "0 0 0 ?";

/// Masks that fail each check, over 32 and 20 bytes; the first is absent, the second fails no check.
const FAULTS: [&str; 10] = [
    ABSENT,
    "1 3 70 ?",
    "1 4194305 70 ?",
    "1 3 4194305 ?",
    "1 3 254 ?",
    "1 3 158 ?",
    "1 3 70 71",
    "1 3 69 ?",
    "1 250 69 70",
    "1 3 xffffffffffffffff xffffffffffffffff",
];

pub fn write(f: &mut File) {
    f.note("one flag of two masks: every truck");
    answers(f);
    f.note("one flag of two masks: refusals");
    refusals(f);
    f.note("one flag of two masks: the flag limit, and several checks at once");
    limits(f);
}

/// Returns the arguments of two masks: both present for kind 0, only the first for 1, only the second for 2, none for 3.
fn masks(kind: u64, first: &str, second: &str, n: u64) -> String {
    let one = |present: bool, start: &str, counts: &str| match present {
        true => format!("1 {start} {n} {counts}"),
        false => ABSENT.to_string(),
    };
    format!("{} {}", one(kind < 2, first, &format!("?,0,{n}")), one(kind.is_multiple_of(2), second, &format!("?,{n}")))
}

fn answers(f: &mut File) {
    f.lend('x', &paint(4, 18));
    f.lend('y', &paint(5, 17));
    for name in NAMES {
        for kind in 0..4 {
            for n in LENGTHS {
                f.ask(&format!("{name} {} 0..{}", masks(kind, "0..8", "0,3", n), n + 2));
                for truck in [0, 1, n.saturating_sub(1), n, MOST, MOST + 1, 1 << 63, MAX] {
                    let masks = masks(kind, "3", "2", n).replace(&format!("?,0,{n}"), "?").replace(&format!("?,{n}"), "?");
                    f.ask(&format!("{name} {masks} {}", show(truck)));
                }
            }
        }
    }
}

fn refusals(f: &mut File) {
    f.lend('x', &paint(9, 32));
    f.lend('y', &paint(10, 20));
    for name in NAMES {
        for first in FAULTS {
            for second in FAULTS {
                for truck in [0, 69, 70, MAX] {
                    f.ask(&format!("{name} {first} {second} {}", show(truck)));
                }
            }
        }
    }
}

fn limits(f: &mut File) {
    f.lend_pattern('x', &paint(8, 509), 524_352);
    f.lend_pattern('y', &paint(9, 509), 524_352);
    for name in NAMES {
        for n in [MOST, MOST + 1] {
            for truck in [0, MOST - 1, MOST, MOST + 1] {
                f.ask(&format!("{name} 1 5 {n} ? 1 64 {n} ? {truck}"));
                f.ask(&format!("{name} 1 {n} 64 ? {ABSENT} {truck}"));
                f.ask(&format!("{name} {ABSENT} 1 {n} 64 ? {}", truck % 65));
            }
        }
        f.ask(&format!("{name} 1 5 {MOST} ? 1 0..8 {MOST} ? {}..{}", MOST - 70, MOST + 2));
        choices(f, &format!("{name} {OPTIONAL} {TWO_SIZES}"));
        choices(f, &format!("{name} 1 {{3|4194305|1}} 70 {{?|1|3}} 0 0 0 ? {{64|70|6}} x:{{524352|9|2}}"));
        choices(f, &format!("{name} 0 0 0 ? 1 {{3|4194305|1}} 70 {{?|1|3}} {{64|70|6}} y:{{524352|9|2}}"));
    }
}
