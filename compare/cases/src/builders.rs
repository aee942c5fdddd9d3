//! The builder's calls: words in progress of many lengths, every alignment, and buffers of every size.

use crate::builders_outside;
use crate::file::File;
use crate::patterns::{MAX, MOST, low, paint, whole};
use crate::token::{list, show};

const FILLS: [u64; 6] = [0, 1, 7, 8, 31, 63];
const STARTS: [u64; 7] = [0, 1, 3, 7, 8, 9, 63];
const LENGTHS: [u64; 8] = [0, 1, 63, 64, 65, 127, 128, 200];
const MIXED: u64 = 0x9E37_79B9_7F4A_7C15;
/// The finished word of a builder that is not new, and the flags of its word in progress.
const FINISHED: u64 = 0x0123_4567_89AB_CDEF;
const PROGRESS: u64 = 0xDEAD_BEEF_CAFE_F00D;

pub const REPEAT: &str = "extend_each_repeated_from_slice_unchecked";
pub const PIECE: &str = "subslice_extend_from_bitmap";
pub const WORD: &str = "push_word_with_len_unchecked";
pub const GATHER: &str = "gather_extend_from_slice";
pub const OPT_GATHER: &str = "opt_gather_extend_from_slice";

pub fn write(f: &mut File) {
    f.note("the builder: the reference's examples");
    examples(f);
    f.note("the builder: flags and words pushed");
    pushes(f);
    words(f);
    f.note("the builder: every alignment of builder and source");
    alignments(f);
    gathers(f);
    f.note("the builder: buffers exactly full, one byte short and longer");
    rooms(f);
    builders_outside::write(f);
}

/// Lends a buffer of `size` bytes, a finished word and then other bytes, and returns a builder with that word and `fill` flags in progress.
pub fn prepared(f: &mut File, fill: u64, size: u64) -> String {
    let mut buf = paint(7, size);
    buf[..8].copy_from_slice(&FINISHED.to_le_bytes());
    f.lend('o', &buf);
    format!("{} {} {}", 64 + fill, show(low(PROGRESS, fill)), FINISHED.count_ones())
}

/// Makes the steps, from a new builder, each with the builder and the buffer that the one before left, then both ends.
fn steps(f: &mut File, steps: &[String]) {
    f.ask("BitmapBuilder::new");
    for (i, step) in steps.iter().enumerate() {
        let (name, arguments) = step.split_once(' ').unwrap();
        f.ask(&format!("{}{name} @3 {arguments}", if i == 0 { "" } else { "+ " }));
    }
    ends(f);
}

/// Freezes, both ways, the builder that the last call returned, in the buffer that it left.
pub fn ends(f: &mut File) {
    let builder: Vec<String> = f.last[f.last.len() - 3..].iter().map(|token| token.to_string()).collect();
    f.ask("+ freeze @3");
    f.ask(&format!("+ into_opt_validity {}", builder.join(" ")));
}

fn examples(f: &mut File) {
    f.lend('x', &[0x2D]);
    let ones = |f: &mut File| f.lend('o', &paint(1, 16));
    ones(f);
    steps(f, &[1, 0, 1, 1, 0, 1].map(|flag| format!("push {flag}")));
    ones(f);
    steps(f, &["extend_from_slice 0 6".into()]);
    ones(f);
    steps(f, &["extend_constant 60 1".into(), "extend_constant 5 1".into()]);
    f.lend('o', &[]);
    f.ask("freeze 0 0 0");
    f.ask("into_opt_validity 0 0 0");
    f.lend_numbers(&[5, 6, 0]);
    for name in [OPT_GATHER, GATHER] {
        ones(f);
        steps(f, &[format!("{name} 0 6")]);
    }
    ones(f);
    steps(f, &[format!("{REPEAT} 2 4 2")]);
    for size in [16, 15] {
        f.ask(&format!("extend_constant 0 0 0 65 0 o:{size}"));
    }
}

fn pushes(f: &mut File) {
    for kind in 0..3 {
        for name in ["push", "push_mut"] {
            f.lend('o', &paint(7, 24));
            let flag = |i: u64| [0, 1, u64::from(i.is_multiple_of(3))][kind];
            steps(f, &(0..193).map(|i| format!("{name} {}", flag(i))).collect::<Vec<_>>());
        }
    }
    f.lend('o', &paint(7, 24));
    let given = [(0, 0, 0, 8), (5, 22, 0, 8), (62, (1 << 62) - 1, 0, 8), (64, 0, 64, 16), (128, 0, 0, 24)];
    let full = [(63, 0, 0, 8), (63, (1 << 63) - 1, 0, 8), (127, 5, 17, 16), (191, 1, 128, 24)];
    let refused = [(0, 0, 0, 0), (0, 0, 0, 7), (64, 0, 64, 15), (64, 0, 0, 7), (64, 0, 65, 16), (1, 2, 0, 8), (64, 1, 0, 16)];
    let far = [(MOST - 1, 0, 0, 24), (MOST, 0, 0, 24), (MOST + 1, 2, 0, 0), (MAX, 0, 0, 24)];
    for (length, word, ones, size) in [&given[..], &full, &refused, &far].concat() {
        for name in ["push", "push_mut"] {
            for flag in 0..2 {
                f.ask(&format!("{name} {} {} {ones} {flag} o:{size}", show(length), show(word)));
            }
        }
    }
}

fn words(f: &mut File) {
    for fill in FILLS {
        let builder = prepared(f, fill, 24);
        for n in [0, 1, 2, 63, 64, 65, 128, MOST, MOST + 1, MAX] {
            let beyond = if n < 64 { 1 << n } else { 0 };
            for word in [1, low(MAX, n), beyond, low(MIXED, n)] {
                f.ask(&format!("{WORD} {builder} {} {}", show(word), show(n)));
            }
            f.ask(&format!("{WORD} {builder} 0,{},{},{} {}", show(1 << 63), show(MAX), show(MIXED), show(n)));
        }
        f.ask(&format!("{WORD} {builder} 0,1,3,{} 0..66", show(MAX)));
    }
}

/// Returns the appends of many flags, with these starts and lengths; `#` is the place of the builder.
fn forms(starts: &str, lengths: &str) -> Vec<String> {
    let mut all = vec![format!("extend_from_slice # {starts} {lengths}"), format!("{PIECE} # 4 288 ? {starts} {lengths}")];
    all.extend((0..4).map(|repeats| format!("{REPEAT} # {starts} {lengths} {repeats}")));
    all.extend((0..2).map(|flag| format!("extend_constant # {lengths} {flag}")));
    all
}

fn alignments(f: &mut File) {
    f.lend('x', &paint(20, 40));
    for fill in FILLS {
        let builder = prepared(f, fill, 104);
        for form in forms(&list(&STARTS), &list(&LENGTHS)) {
            f.ask(&form.replace('#', &builder));
        }
    }
    let builder = prepared(f, 5, 56);
    for form in forms("0..8", "0..66") {
        f.ask(&form.replace('#', &builder));
    }
    for (i, fill) in FILLS.into_iter().enumerate() {
        for n in LENGTHS {
            for form in forms(&show(STARTS[i]), &show(n)) {
                let builder = prepared(f, fill, 104);
                f.ask(&form.replace('#', &builder));
                ends(f);
            }
        }
    }
}

/// Returns `many` indices of a kind: all inside, at, past or far past the length n, inside except for the first or the 65th, or mixed.
pub fn indices(kind: usize, n: u64, many: u64) -> Vec<u32> {
    let inside = |i: u64| if n == 0 { 0 } else { (7 * i + 3) % n };
    let index = |i: u64| match kind {
        0 => n.saturating_sub(1),
        1 => n,
        2 => n + 1,
        3 => u64::from(u32::MAX),
        4 => inside(i),
        5 => [inside(i), n][usize::from(i == 0)],
        6 => [inside(i), n][usize::from(i == 64)],
        _ => (7 * i + 3) % (n + n / 2 + 1),
    };
    (0..many).map(|i| index(i) as u32).collect()
}

fn gathers(f: &mut File) {
    f.lend('x', &paint(21, 40));
    for i in 0..48 {
        let (n, kind, fill, start) = (LENGTHS[i / 8], i % 8, FILLS[i % 6], STARTS[i % 7]);
        let builder = prepared(f, fill, 40);
        f.lend_numbers(&indices(kind, n, 130));
        for name in [GATHER, OPT_GATHER] {
            f.ask(&format!("{name} {builder} {start} {n} i:0,1,2,63,64,65,130"));
            for many in [1, 65, 130] {
                f.ask(&format!("{name} {builder} {start} {n} i:{many}"));
            }
        }
    }
    for fill in FILLS {
        f.lend_numbers(&indices(4, 200, 130));
        for name in [GATHER, OPT_GATHER] {
            let builder = prepared(f, fill, 40);
            f.ask(&format!("{name} {builder} 3 200 i:0..131"));
            f.ask(&format!("{name} {builder} 3 200"));
            ends(f);
        }
    }
}

fn rooms(f: &mut File) {
    f.lend('x', &paint(22, 40));
    for n in [0, 1, 65] {
        f.lend_numbers(&indices(4, n, n));
        let span = format!("3 {n}");
        let calls = [
            ("push", 1, "1".to_string()),
            ("push_mut", 1, "1".to_string()),
            ("freeze", 0, String::new()),
            ("into_opt_validity", 0, String::new()),
            ("extend_constant", n, format!("{n} 1")),
            (WORD, n, format!("{} {n}", show(low(MIXED, n)))),
            ("extend_from_slice", n, span.clone()),
            (REPEAT, 2 * n, format!("{span} 2")),
            (PIECE, n, format!("0 320 ? {span}")),
            (GATHER, n, span.clone()),
            (OPT_GATHER, n, span.clone()),
        ];
        for (name, more, arguments) in calls {
            for fill in [0, 1, 63] {
                let builder = prepared(f, fill, 48);
                let exact = whole(64 + fill + more);
                for size in [exact, exact - 1, exact + 5, exact - 8, 8, 7, 0] {
                    f.ask(&format!("{} o:{size}", format!("{name} {builder} {arguments}").trim_end()));
                }
            }
        }
    }
}
