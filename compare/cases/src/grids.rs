//! Masks as grids: every list of up to twelve flags in every shape, longer ones in all their shapes, grids with no rows or no columns, rows
//! and columns of any size, counts of every kind, and several checks that fail.

use crate::file::File;
use crate::lists::every_list;
use crate::masks::brought;
use crate::patterns::{MAX, MOST, paint, whole};
use crate::several::choices;
use crate::token::{Token, list, show};

/// Calls that take a grid, and what stands after its numbers.
const CALLS: [(&str, &str); 5] =
    [("grid_row", " 0"), ("grid_column", " 0"), ("grid_transpose", ""), ("grid_row_zeros", ""), ("grid_column_zeros", "")];

/// Numbers at the end of a grid of 3 rows and 4 columns, past it and far past it.
const FAR: [u64; 12] = [0, 1, 2, 3, 4, 5, MOST, MOST + 1, 1 << 32, (1 << 32) + 1, 1 << 60, MAX];

/// Rows, columns and a length, which is their product only modulo 2^64.
const WRAPPED: [(u64, u64, u64); 7] = [
    (1 << 32, 1 << 32, 0),
    (1 << 63, 2, 0),
    ((1 << 63) + 3, 2, 6),
    (2, (1 << 63) + 3, 6),
    (3, 0xAAAA_AAAA_AAAA_AAAB, 1),
    (MAX, MAX, 1),
    (MAX, MAX - 5, 6),
];

/// Rows and columns about a word, about the 511 rows of a batch of the counts of columns, and short or narrow beside it.
const BLOCKS: [(u64, u64); 12] =
    [(65, 65), (64, 128), (128, 64), (127, 129), (63, 65), (65, 63), (3, 1023), (1023, 3), (512, 3), (511, 2), (512, 65), (1, 64)];

/// Requests in which several checks fail, and the number that refuses them: over bytes that end where the limit does, and over one more.
const SEVERAL: [(&str, u64); 16] = [
    ("grid_row 4194304 2 ? 2 1 1 x:524288", 1),
    ("grid_row 4194304 2 ? 2 1 0 x:524288", 2),
    ("grid_row 4194304 2 ? 2 1 2 x:524288", 2),
    ("grid_row 4194304 2 ? 3 1 1 x:524288", 2),
    ("grid_row 4194304 2 ? 2 1 1 x:524289", 1),
    ("grid_row 4194304 2 ? 2 1 0 x:524289", 0),
    ("grid_row 4194304 2 ? 2 1 2 x:524289", 6),
    ("grid_row 4194304 2 ? 3 1 1 x:524289", 12),
    ("grid_row 4194304 2 ? 3 1 9 x:524289", 12),
    ("grid_row 4194304 2 3 2 1 1 x:524289", 1),
    ("grid_column 3 70 71 11 7 7 o:7", 3),
    ("grid_column 3 70 ? 11 7 7 o:7", 12),
    ("grid_column 3 70 ? 10 7 7 o:7", 6),
    ("grid_column 3 70 35 11 7 7 o:7", 12),
    ("grid_column 3 70 35 10 7 7 o:7", 6),
    ("grid_row_zeros 3 70 ? 11 7 i:9", 12),
];

/// Requests with places that can fail a check.
const CHOICES: [&str; 5] = [
    "grid_row {3|4194305|1} 70 {?|71|3} {10|11|12} 7 {9|10|6} x:{524352|9|2}",
    "grid_column {3|4194305|1} 70 {?|71|3} {10|11|12} 7 {6|7|6} x:{524352|9|2} o:{8|7|9}",
    "grid_transpose {3|4194305|1} 70 {?|71|3} {10|11|12} 7 x:{524352|9|2} o:{16|15|9}",
    "grid_row_zeros {3|4194305|1} 70 {?|71|3} {10|11|12} 7 x:{524352|9|2} i:{10|9|9}",
    "grid_column_zeros {3|4194305|1} 70 {?|71|3} {10|11|12} 7 x:{524352|9|2} i:{7|6|9}",
];

pub fn write(f: &mut File) {
    f.note("grids: every list of up to twelve flags in every shape");
    f.lend('o', &paint(7, 17));
    f.lend_numbers(&[7; 14]);
    (1..=12).for_each(|n| lists(f, n));
    f.note("grids: no rows, no columns");
    f.lend('x', &paint(10, 24));
    empty(f);
    f.note("grids: 64, 65, 128 and 130 flags in every shape");
    f.lend('o', &paint(7, 33));
    f.lend_numbers(&(0..132).map(|k| 1000 + k).collect::<Vec<u32>>());
    for n in [64, 65, 128, 130] {
        for kind in [0, 1, 2, 10] {
            f.lend('x', &paint(kind, 17));
            shapes(n).for_each(|(rows, columns)| every(f, &format!("0,3 {n} ?"), rows, columns));
        }
    }
    f.note("grids: blocks, bands and batches that are whole, one short and one over");
    blocks(f);
    f.note("grids: counts known, unknown and false, serials, places one short");
    f.lend('x', &paint(10, 24));
    counts(f);
    places(f);
    f.note("grids: numbers of every size, products that wrap to the length");
    numbers(f);
    f.note("grids: the flag limit");
    limits(f);
    f.note("grids: several checks at once");
    together(f);
}

/// Returns the shapes of a grid of n flags: its rows and its columns.
fn shapes(n: u64) -> impl Iterator<Item = (u64, u64)> {
    (1..=n).filter(move |rows| n.is_multiple_of(*rows)).map(move |rows| (rows, n / rows))
}

/// Asks for all rows, all columns and one number past the last of each, the transposed grid, and both counts.
fn every(f: &mut File, mask: &str, rows: u64, columns: u64) {
    f.ask(&format!("grid_row {mask} {rows} {columns} 0..{}", rows + 1));
    f.ask(&format!("grid_column {mask} {rows} {columns} 0..{}", columns + 1));
    f.ask(&format!("grid_transpose {mask} {rows} {columns}"));
    f.ask(&format!("grid_row_zeros {mask} {rows} {columns}"));
    f.ask(&format!("grid_column_zeros {mask} {rows} {columns}"));
}

/// Asks for every list of n flags.
fn lists(f: &mut File, n: u64) {
    every_list(f, n, |f, starts| {
        shapes(n).for_each(|(rows, columns)| every(f, &format!("{starts} {n} ?"), rows, columns));
    });
}

/// Asks at two starts, over bytes that end with the grid's last flag: the middle column and the last, the transposed grid, and both counts,
/// each into an output that is just long enough, which is not all zeros or ones before.
fn blocks(f: &mut File) {
    for (rows, columns) in BLOCKS {
        let n = rows * columns;
        for start in [0, 3] {
            f.lend('x', &paint(16 + rows, (start + n).div_ceil(8)));
            f.lend_pattern('o', &paint(7, 17), whole(n) as usize);
            f.lend_numbers(&(0..rows.max(columns) as u32).map(|k| 1000 + k).collect::<Vec<u32>>());
            let mask = format!("{start} {n} ? {rows} {columns}");
            f.ask(&format!("grid_column {mask} {} o:{}", list(&[columns / 2, columns - 1]), whole(rows)));
            f.ask(&format!("grid_transpose {mask}"));
            f.ask(&format!("grid_row_zeros {mask} i:{rows}"));
            f.ask(&format!("grid_column_zeros {mask} i:{columns}"));
        }
    }
}

fn empty(f: &mut File) {
    for n in 0..4 {
        every(f, "0,3 0 ?,0,1", 0, n);
        every(f, "0,3 0 ?,0,1", n, 0);
    }
    // Neither number is a length: only their product is held to one.
    let most = show(1 << 60);
    let past = list(&[0, (1 << 60) - 1, 1 << 60, MAX]);
    for start in ["3", "192", "193", "4194304", "4194305"] {
        f.ask(&format!("grid_row {start} 0 ?,0 {most} 0 {past}"));
        f.ask(&format!("grid_column {start} 0 ?,0 0 {most} {past}"));
        f.ask(&format!("grid_row {start} 0 ?,0 0 {most} {past}"));
        f.ask(&format!("grid_column {start} 0 ?,0 {most} 0 {past}"));
        for (name, _) in &CALLS[2..] {
            f.ask(&format!("{name} {start} 0 ?,0 {most} 0 o:0..2 i:0,14"));
            f.ask(&format!("{name} {start} 0 ?,0 0 {most} o:0..2 i:0,14"));
        }
    }
    f.ask(&format!("grid_row 3 0 ? {most} 0 {}", (1u64 << 60) - 1));
    f.ask("grid_row 3 0 0 1 0 0");
    f.ask("grid_row_zeros 3 0 ? 5 0");
    f.ask("grid_column_zeros 3 0 ? 0 5");
}

/// Asks with each kind of count, one row that is the whole grid among them, and with serials.
fn counts(f: &mut File) {
    for (rows, columns) in [(1, 130), (2, 65), (10, 13), (65, 2), (130, 1)] {
        for kind in [0, 1, 10] {
            let bytes = paint(kind, 24);
            f.lend('x', &bytes);
            every(f, &format!("3 130 {}", brought(&bytes, 3, 130).join(",")), rows, columns);
            for count in brought(&bytes, 3, 130) {
                f.ask(&format!("grid_row 3 130 {count} {rows} {columns} {}", rows - 1));
            }
        }
        for (name, number) in CALLS {
            f.ask(&format!("{name} 3 130 ? {rows} {columns}{number} s:0,1,4294967295"));
            f.ask(&format!("{name} 3 130 129 {rows} {columns}{number} s:7"));
        }
    }
    f.ask("grid_column 3 0 ? 0 5 4 s:7");
    f.ask("grid_transpose 3 0 ? 0 5 s:7");
    f.ask("grid_row 3 0 ? 5 0 4 s:7");
}

/// Asks with outputs that are one short, exactly full and longer.
fn places(f: &mut File) {
    f.lend('x', &paint(10, 24));
    for (rows, columns) in [(2, 65), (65, 2), (1, 64), (64, 1), (64, 2)] {
        let mask = format!("3 {} ?", rows * columns);
        for more in 0..3 {
            let size = |flags: u64| whole(flags) + more - 1;
            f.ask(&format!("grid_column {mask} {rows} {columns} 0 o:{}", size(rows)));
            f.ask(&format!("grid_transpose {mask} {rows} {columns} o:{}", size(rows * columns)));
            f.ask(&format!("grid_row_zeros {mask} {rows} {columns} i:{}", rows + more - 1));
            f.ask(&format!("grid_column_zeros {mask} {rows} {columns} i:{}", columns + more - 1));
        }
    }
}

fn numbers(f: &mut File) {
    let far = list(&FAR);
    f.ask(&format!("grid_row 3 12 ? 3 4 {far}"));
    f.ask(&format!("grid_column 3 12 ? 3 4 {far}"));
    for number in FAR {
        f.ask(&format!("grid_row 3 12 ? 3 4 {}", show(number)));
        f.ask(&format!("grid_column 3 12 ? 3 4 {}", show(number)));
    }
    for (name, number) in CALLS {
        f.ask(&format!("{name} 3 0,12 ? {far} {far}{number}"));
        for (rows, columns, length) in WRAPPED {
            f.ask(&format!("{name} 3 {length} ? {} {}{number}", show(rows), show(columns)));
        }
        f.ask(&format!("{name} {} 12,{MOST} ? 3,4,{MOST} 3,4,{MOST}{number}", list(&[0, MOST, MOST + 1, 1 << 61, MAX])));
    }
}

fn limits(f: &mut File) {
    f.lend_pattern('x', &paint(13, 509), 524_352);
    f.lend_pattern('o', &paint(7, 251), 524_352);
    f.lend_numbers(&[7; 65_536]);
    for (rows, columns) in [(2048, 2048), (64, 65_536), (65_536, 64), (2047, 2049), (12, 349_525), (1, MOST), (MOST, 1)] {
        let shape = format!("{} ? {rows} {columns}", rows * columns);
        f.ask(&format!("grid_row 3 {shape} {}", list(&[0, rows / 2, rows - 1, rows])));
        f.ask(&format!("grid_column 3 {shape} {}", columns / 2));
        f.ask(&format!("grid_column 3 {shape} {columns}"));
        f.ask(&format!("grid_transpose 0 {shape}"));
        f.ask(&format!("grid_transpose 3 {shape}"));
        f.ask(&format!("grid_row_zeros 3 {shape}"));
        f.ask(&format!("grid_column_zeros 3 {shape}"));
    }
    f.ask(&format!("grid_transpose 3 {MOST} ? 2048 2048 o:524287"));
    f.ask(&format!("grid_column_zeros 3 {MOST} ? 64 65536 i:65535"));
    for (name, number) in CALLS {
        f.ask(&format!("{name} 0 {} ? 1 {}{number}", MOST + 1, MOST + 1));
        f.ask(&format!("{name} 512 {} ? 1 {}{number}", MOST, MOST));
        f.ask(&format!("{name} 513 {} ? 1 {}{number}", MOST, MOST));
    }
    f.lend_numbers(&[7; 14]);
    f.lend('o', &paint(7, 17));
    // A row's start: at the limit it is allowed, above it the row alone is refused.
    f.ask("grid_row 4194296 20 ? 5 4 0..6");
    f.ask("grid_row 4194304 20 ? 5 4 0..6");
    every(f, "4194304 9 ?", 3, 3);
}

fn together(f: &mut File) {
    for (request, number) in SEVERAL {
        f.ask(request);
        assert_eq!(f.last[0], Token::Number(number), "{request}");
    }
    CHOICES.iter().for_each(|template| choices(f, template));
    f.lend('o', &[]);
    f.lend_numbers(&[]);
}
