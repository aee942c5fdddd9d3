//! Serials: which of two masks wins, its part and its record; and the serial of every record that a call returns.

use crate::combinations::{combinations, masks};
use crate::file::File;
use crate::patterns::{MAX, MOST, paint, zeros};
use crate::several::{TWO_SIZES, choices};
use crate::token::show;

const CALLS: [&str; 3] = ["superseding_part", "superseding", "superseding_bytes"];

/// Serials around the ends of their range.
const SERIALS: &str = "0,1,2147483648,4294967294,4294967295";

/// Appends of a few flags to a builder with a serial; the mask of one of them has another serial.
const APPENDS: [&str; 9] = [
    "push 63 5 0 1",
    "push_mut 63 5 0 1",
    "push_word_with_len_unchecked 63 5 0 3 2",
    "extend_constant 63 5 0 70 1",
    "extend_from_slice 63 5 0 3 70",
    "extend_each_repeated_from_slice_unchecked 63 5 0 3 7 3",
    "subslice_extend_from_bitmap 63 5 0 3 70 ? 1 66",
    "gather_extend_from_slice 63 5 0 3 70",
    "opt_gather_extend_from_slice 63 5 0 3 70",
];

pub fn write(f: &mut File) {
    f.note("serials: which of two masks wins");
    wins(f);
    equal(f);
    edges(f);
    refusals(f);
    f.note("serials: the serial of what a call gives");
    handed_on(f);
    f.note("serials: a planner's edit, under the old serial and under a larger one");
    edit(f);
}

/// Asks at every start bit, for lengths around a byte and a word, with serials below, equal and above.
fn wins(f: &mut File) {
    f.lend('x', &paint(7, 24));
    f.lend('y', &paint(8, 24));
    for name in CALLS {
        f.ask(&format!("{name} 0..17 0,1,7,8,9,63,64,65 ? 5 70 ? s:0..3 t:1"));
        f.ask(&format!("{name} 5 70 ? 0..17 0,1,7,8,9,63,64,65 ? s:1 t:0..3"));
        f.ask(&format!("{name} 3 70 ? 5 70 ? s:{SERIALS} t:{SERIALS}"));
        f.ask(&format!("{name} 3 70 ? 5 69 ? s:2 t:2"));
    }
}

/// Asks with equal serials: equal lists at other starts, and lists that differ in length or in one flag.
fn equal(f: &mut File) {
    f.lend('x', &[0xFF; 16]);
    f.lend('y', &[0xFF; 16]);
    for name in CALLS {
        f.ask(&format!("{name} 0..9 0,1,8,63,64,65 ?,0 0..9 0,1,8,63,64,65 ?,0 s:4 t:4"));
    }
    let mut other = [0xFF; 16];
    other[8] = 0xFE;
    f.lend('y', &other);
    for name in CALLS {
        f.ask(&format!("{name} 0 63..66 ? 0 63..66 ? s:0,4294967295 t:0,4294967295"));
        f.ask(&format!("{name} 0 64 0 0 64 0 s:4 t:4"));
        f.ask(&format!("{name} 0 65 0 0 65 1 s:4 t:4"));
    }
}

/// Asks at the limit, with exactly full bytes and one fewer, for lengths of 0 at every start bit, and with several checks failing.
fn edges(f: &mut File) {
    f.lend('x', &paint(9, 16));
    f.lend('y', &paint(10, 16));
    for name in CALLS {
        f.ask(&format!("{name} 0..18 0 0,? 1 127 ? s:1 t:0"));
        f.ask(&format!("{name} 64 64 ? 0 128 ? s:1 t:0 x:15..17 y:15..17"));
        f.ask(&format!("{name} 3 5 ? 3 6 ? s:0 t:1 x:1,2 y:1,2"));
    }
    f.lend_pattern('x', &paint(13, 509), 524_289);
    f.lend_pattern('y', &paint(13, 509), 524_289);
    for name in CALLS {
        f.ask(&format!("{name} 0 {MOST} ? 0 {MOST} ? s:3 t:3"));
        f.ask(&format!("{name} {MOST} 1 ? {MOST} 8 ? s:3 t:3,4"));
        f.ask(&format!("{name} {},{MOST} {MOST} ? 0 8 ? s:4 t:3", MOST - 1));
    }
    for name in &CALLS[..2] {
        choices(f, &format!("{name} {{3|4194305|1}} 70 {{?|71|3}} {{5|4194305|1}} 70 {{?|71|3}} {TWO_SIZES} s:{{2|1|14}} t:1"));
    }
}

/// Asks with each check failing by itself, 1, 2 and 3 of either mask together with 14, and with the largest numbers.
fn refusals(f: &mut File) {
    let bytes = paint(7, 24);
    let known = zeros(&bytes, 3, 70);
    f.lend('x', &bytes);
    f.lend('y', &paint(8, 24));
    let most = MOST + 1;
    let max = show(MAX);
    for name in CALLS {
        for first in [format!("3 70 {known}"), "3 70 71".into(), format!("3 {most} ?"), "3 190 ?".into(), format!("{max} {max} {max}")] {
            for second in ["5 70 ?".to_string(), "5 70 71".into(), format!("{most} 70 ?"), "5 188 ?".into(), format!("{max} {max} ?")] {
                f.ask(&format!("{name} {first} {second} s:0,1 t:1,4294967295"));
            }
        }
    }
}

fn handed_on(f: &mut File) {
    f.lend('x', &paint(7, 24));
    f.lend('y', &paint(8, 24));
    f.lend('z', &paint(9, 24));
    f.lend('o', &paint(10, 24));
    f.lend_numbers(&[0, 69, 3]);
    for (name, flag) in combinations() {
        let all = masks(name, ["3", "5", "0"], "70", ["?", "?", "?"]);
        let serials = ["s:0..4", "s:0..4 t:0..4", "s:0..4 t:0..4 u:0..4"][masks_of(name) - 1];
        f.ask(&format!("{name} {all}{flag} {serials}"));
    }
    f.ask("or 0 0 0 3 0 0 s:1 t:4294967295");
    f.ask("slice 3 70 ? 0..3 60..68 s:9,4294967295");
    f.ask("slice 3 70 ? 4 67 s:9");
    f.ask("unset_bits 3 70 ? s:9,4294967295");
    f.ask("unset_bits 3 190 ? s:9");
    for append in APPENDS {
        f.ask(&format!("{append} s:9,4294967295 t:8"));
        f.ask(&format!("{append} s:9 t:8 o:15"));
    }
    for name in ["freeze", "into_opt_validity"] {
        f.ask(&format!("{name} 3 5,7 0 s:9,4294967295"));
        f.ask(&format!("{name} 3 9 0 s:9"));
    }
}

fn masks_of(name: &str) -> usize {
    match name {
        "not" => 1,
        "select" => 3,
        _ => 2,
    }
}

/// Rebuilds a mask of runs with one flag moved: with the old serial it and the mask before the edit are refused by 14, with a larger one
/// it wins.
fn edit(f: &mut File) {
    f.lend('x', &[0xF0, 0x0F, 0, 0, 0, 0, 0, 0]);
    f.lend('o', &[0; 8]);
    f.ask("BitmapBuilder::new");
    for append in ["extend_constant @3 5 0 s:6", "+ extend_constant @3 7 1 s:6", "+ extend_constant @3 28 0 s:6", "+ freeze @3 s:6"] {
        f.ask(append);
    }
    f.lend_left('y');
    for name in CALLS {
        f.ask(&format!("{name} 0 40 ? 0 40 ? s:6 t:6,7"));
    }
}
