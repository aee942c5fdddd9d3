//! Masks combined: every start bit, counts of every kind, true and false, outputs of every size, refusals of masks combined or compared.

use crate::file::File;
use crate::masks::brought;
use crate::patterns::{MAX, MOST, paint, whole, zeros};
use crate::token::{list, show};

const LENGTHS: [u64; 8] = [0, 1, 8, 63, 64, 65, 128, 129];
const PAIRS: [&str; 5] = ["and", "and_not", "or", "or_not", "xor"];
const KINDS: [u64; 3] = [0, 1, 8];

/// Masks over 32 bytes: one that fails no check, then masks that fail each check by itself or several at once.
const FAULTS: [(u64, u64, &str); 8] = [
    (3, 70, "?"),
    (MOST + 1, 70, "?"),
    (3, MOST + 1, "?"),
    (3, 254, "?"),
    (3, 70, "71"),
    (3, 69, "?"),
    (MAX, 70, "4194305"),
    (3, MAX, "xffffffffffffffff"),
];

pub fn write(f: &mut File) {
    f.note("masks: the reference's examples");
    examples(f);
    f.note("masks: combinations");
    combining(f);
    rooms(f);
    counts(f);
    all(f);
    f.note("masks: refusals of masks combined and compared");
    refusals(f);
}

/// Returns a combination's mask arguments, with these starts and counts and n flags each.
pub fn masks(name: &str, starts: [&str; 3], n: &str, counts: [&str; 3]) -> String {
    let many = if name == "not" { 1 } else { 2 + usize::from(name == "select") };
    let texts: Vec<String> = (0..many).map(|k| format!("{} {n} {}", starts[k], counts[k])).collect();
    texts.join(" ")
}

/// Returns the combinations, each with the text of its flag: `select_constant` comes with both flags, the others with none.
pub fn combinations() -> Vec<(&'static str, &'static str)> {
    let mut all: Vec<(&str, &str)> = PAIRS.iter().map(|name| (*name, "")).collect();
    all.extend([("not", ""), ("select", ""), ("select_constant", " 0"), ("select_constant", " 1")]);
    all
}

fn examples(f: &mut File) {
    f.lend('x', &[0x2D]);
    f.lend('y', &[0x2D]);
    f.lend('o', &paint(1, 16));
    for mask in ["0 6 ?", "2 4 ?"] {
        f.ask(&format!("unset_bits {mask}"));
        f.ask(&format!("num_edges {mask}"));
        f.ask(&format!("and {mask} {mask}"));
    }
    f.lend('x', &[4]);
    f.lend('y', &[1]);
    f.ask("or_not 0 3 ? 0 3 ?");
    f.lend('x', &[5]);
    f.lend('y', &[3]);
    f.lend('z', &[14]);
    f.ask("select 0 4 ? 0 4 ? 0 4 ?");
    f.lend('x', &paint(14, 9));
    for size in [15, 16] {
        f.ask(&format!("not 2 65 ? o:{size}"));
    }
}

fn lend_three(f: &mut File) {
    for (letter, kind) in [('x', 4), ('y', 5), ('z', 6)] {
        f.lend(letter, &paint(kind, 40));
    }
    f.lend('o', &paint(7, 32));
}

fn combining(f: &mut File) {
    lend_three(f);
    for (name, flag) in combinations() {
        for i in 0..8u64 {
            let starts = [show(i), show((3 * i + 1) % 8), show((5 * i + 2) % 8)];
            let starts = [starts[0].as_str(), &starts[1], &starts[2]];
            for n in LENGTHS {
                f.ask(&format!("{name} {}{flag}", masks(name, starts, &show(n), ["?"; 3])));
            }
        }
    }
    let x = paint(4, 40);
    f.lend('y', &x);
    f.lend('z', &x);
    for (name, flag) in combinations() {
        for n in LENGTHS {
            let known = show(zeros(&x, 5, n));
            f.ask(&format!("{name} {}{flag}", masks(name, ["5"; 3], &show(n), [&known; 3])));
            f.ask(&format!("{name} {}{flag}", masks(name, ["2", "7", "4"], &show(n), ["?"; 3])));
        }
    }
}

fn rooms(f: &mut File) {
    lend_three(f);
    for (name, flag) in combinations() {
        for n in LENGTHS {
            let mut sizes = vec![whole(n), whole(n).saturating_sub(1), whole(n) + 5, 0];
            sizes.dedup();
            for size in sizes {
                f.ask(&format!("{name} {}{flag} o:{size}", masks(name, ["0", "1", "2"], &show(n), ["?"; 3])));
            }
        }
    }
}

/// Asks with all pairs of counts over all pairs of constant and mixed masks.
fn counts(f: &mut File) {
    f.lend('o', &paint(7, 16));
    f.lend('z', &paint(6, 40));
    for (first, second) in KINDS.iter().flat_map(|first| KINDS.map(|second| (*first, second))) {
        let (x, y) = (paint(first, 40), paint(second, 40));
        f.lend('x', &x);
        f.lend('y', &y);
        for (name, flag) in combinations() {
            for n in [0, 1, 65] {
                let (left, right) = (brought(&x, 3, n).join(","), brought(&y, 6, n).join(","));
                f.ask(&format!("{name} {}{flag}", masks(name, ["3", "6", "1"], &show(n), [&left, &right, "?"])));
            }
            if first != second {
                for counts in [["0", "0", "?"], ["65", "65", "?"], ["0", "65", "65"], ["65", "0", "0"], ["1", "?", "?"]] {
                    f.ask(&format!("{name} {}{flag}", masks(name, ["3", "6", "1"], "65", counts)));
                }
            }
        }
    }
}

/// Asks at every start bit of the first mask and some of the second.
fn all(f: &mut File) {
    f.lend('o', &paint(7, 24));
    for (first, second) in KINDS.iter().flat_map(|first| KINDS.map(|second| (*first, second))) {
        f.lend('x', &paint(first, 40));
        f.lend('y', &paint(second, 40));
        for (name, flag) in combinations() {
            for n in LENGTHS {
                let sizes = list(&[whole(n), whole(n).saturating_sub(1)]);
                let (starts, counts) = (["0..8", "0,3,7", "5"], [format!("?,0,{n}"), format!("?,{n},{}", n + 1)]);
                let counts = [counts[0].as_str(), &counts[1], "?"];
                f.ask(&format!("{name} {}{flag} o:{sizes}", masks(name, starts, &show(n), counts)));
            }
        }
    }
}

fn refusals(f: &mut File) {
    let bytes = paint(9, 32);
    for letter in ['x', 'y', 'z'] {
        f.lend(letter, &bytes);
    }
    f.lend('o', &paint(7, 17));
    let text = |(start, length, count): (u64, u64, &str)| format!("{} {} {count}", show(start), show(length));
    for first in FAULTS.map(text) {
        for second in FAULTS.map(text) {
            for (name, flag) in combinations().into_iter().filter(|(name, _)| *name != "not" && *name != "select") {
                for size in [15, 16] {
                    f.ask(&format!("{name} {first} {second}{flag} o:{size}"));
                }
            }
            for name in ["eq", "num_intersections_with"] {
                f.ask(&format!("{name} {first} {second}"));
            }
            for third in FAULTS.map(text) {
                f.ask(&format!("select {first} {second} {third} o:15,16"));
            }
            f.ask(&format!("select {first} {second} 3 70 ?"));
        }
        for size in [15, 16] {
            f.ask(&format!("not {first} o:{size}"));
        }
        for name in ["unset_bits", "num_edges", "SlicesIterator::new"] {
            f.ask(&format!("{name} {first}"));
        }
    }
}
