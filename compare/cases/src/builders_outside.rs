//! The builder's calls on builders from outside, with arguments that fail checks too, at far numbers and at the flag limit.

use crate::builders::{GATHER, OPT_GATHER, PIECE, REPEAT, WORD, ends, indices, prepared};
use crate::file::File;
use crate::patterns::{MAX, MOST, paint};
use crate::token::{list, show};

const FAR: [u64; 14] = [0, 1, 2, 64, 319, 320, 321, MOST - 1, MOST, MOST + 1, 1 << 58, 1 << 63, MAX - 63, MAX];

pub fn write(f: &mut File) {
    f.note("the builder: builders from outside, and arguments that fail checks beside them");
    damaged(f);
    f.note("the builder: far numbers");
    far(f);
    f.note("the builder: the flag limit");
    limits(f);
}

/// Builders that appends return, and builders that none returns.
const BUILDERS: [(u64, u64, u64); 24] = [
    (0, 0, 0),
    (63, (1 << 63) - 1, 0),
    (5, 0b10110, 0),
    (70, 0b101101, 0),
    (70, 0b101101, 33),
    (70, 0b111111, 64),
    (64, 0, 64),
    (128, 0, 0),
    (191, 3, 128),
    (192, 0, 192),
    (70, 1 << 6, 33),
    (70, 1 << 63, 0),
    (64, 1, 0),
    (0, 1, 0),
    (0, 0, 1),
    (63, 0, 1),
    (70, 0b101101, 65),
    (193, 1, 0),
    (256, 0, 0),
    (256, 1, 257),
    (MOST, 0, 0),
    (MOST + 1, 0, 0),
    (MAX - 63, 1, MAX),
    (MAX, MAX, MAX),
];

/// Returns each append with its arguments after the builder: good ones, and ones that fail its checks, one or several.
fn faults() -> Vec<(&'static str, Vec<String>)> {
    let spans = [(2, 5), (MOST + 1, 5), (2, MOST + 1), (2, 319), (MAX, MAX)].map(|(start, n)| format!("{} {}", show(start), show(n)));
    let repeated = |repeats: u64| spans.clone().map(|span| format!("{span} {}", show(repeats)));
    let pieces = |mask: &str| spans.clone().map(|span| format!("{mask} {span}"));
    vec![
        ("push", vec!["1".into()]),
        ("push_mut", vec!["0".into()]),
        ("extend_constant", vec!["5 1".into(), format!("{} 0", MOST + 1), format!("{} 1", show(MAX))]),
        (WORD, vec!["21 5".into(), "32 5".into(), "0 65".into(), format!("0 {}", MOST + 1), format!("{0} {0}", show(MAX))]),
        ("extend_from_slice", spans.to_vec()),
        (REPEAT, [repeated(2), repeated(MAX)].concat()),
        (PIECE, [pieces("0 320 ?"), pieces("0 320 321"), pieces("0 6 ?"), pieces("1 320 321")].concat()),
        (GATHER, spans.to_vec()),
        (OPT_GATHER, spans.to_vec()),
        ("freeze", vec![String::new()]),
        ("into_opt_validity", vec![String::new()]),
    ]
}

fn damaged(f: &mut File) {
    f.lend('x', &paint(23, 40));
    f.lend('o', &paint(7, 24));
    for indices in [vec![3, 0, 2], vec![5, 0, 2], vec![u32::MAX; 3]] {
        f.lend_numbers(&indices);
        for (name, all) in faults() {
            if indices[0] != 3 && !name.contains("gather") {
                continue;
            }
            for (length, word, ones) in BUILDERS {
                let builder = format!("{} {} {}", show(length), show(word), show(ones));
                for arguments in &all {
                    let request = format!("{name} {builder} {arguments}");
                    f.ask(&format!("{} o:24", request.trim_end()));
                    f.ask(&format!("{} o:16,8,7,0", request.trim_end()));
                }
            }
        }
    }
}

fn far(f: &mut File) {
    f.lend('x', &paint(24, 40));
    f.lend_numbers(&indices(4, 64, 3));
    let all = list(&FAR);
    f.lend('o', &paint(7, 24));
    f.ask(&format!("extend_constant {all} 0 0 {all} 0,1"));
    let builder = prepared(f, 7, 24);
    for name in ["extend_from_slice", GATHER, OPT_GATHER] {
        f.ask(&format!("{name} {builder} {all} {all}"));
    }
    f.ask(&format!("{PIECE} {builder} 0 320 ? {all} {all}"));
    f.ask(&format!("{PIECE} {builder} {all} {all} ? 1 5"));
    f.ask(&format!("{REPEAT} {builder} 0 {all} {all}"));
}

/// Appends up to and past the limit, each time to a builder of ones.
fn limits(f: &mut File) {
    f.lend_pattern('x', &paint(25, 509), 524_352);
    f.lend_numbers(&[0; 5]);
    let spans = [(0, 0, MOST), (0, 5, MOST), (0, 0, MOST + 1), (1, 3, MOST - 1), (1, 3, MOST)];
    let mut cases: Vec<(u64, String)> = spans.map(|(before, start, n)| (before, format!("extend_from_slice @3 {start} {n}"))).to_vec();
    let constants = [(0, MOST), (0, MOST - 64), (0, MOST + 1), (63, MOST - 63), (63, MOST - 62), (MOST - 64, 65), (MOST, 0)];
    cases.extend(constants.map(|(before, n)| (before, format!("extend_constant @3 {n} {}", before % 2))));
    cases.extend(
        [(0, 0, MOST), (0, 1, MOST), (7, 1, MOST - 7)].map(|(before, start, n)| (before, format!("{PIECE} @3 5 {MOST} ? {start} {n}"))),
    );
    let repeats = [(0, 3, 65536, 64), (4, 0, 2097150, 2), (5, 0, 2097150, 2), (0, 9, MOST, 1), (0, 9, MOST, 0), (0, 2, 1, MOST)];
    let more = [(0, 9, MOST, 1 << 42), (0, 2, 1, MOST + 1)];
    cases.extend(
        [&repeats[..], &more].concat().iter().map(|(before, start, n, times)| (*before, format!("{REPEAT} @3 {start} {n} {times}"))),
    );
    cases.extend([
        (MOST - 1, "push @3 1".into()),
        (MOST, "push @3 1".into()),
        (MOST - 1, "push_mut @3 1".into()),
        (MOST, "push_mut @3 1".into()),
    ]);
    cases.extend([MOST - 1, MOST].map(|before| (before, format!("{WORD} @3 1 1"))));
    cases.extend([(MOST - 5, GATHER), (MOST - 4, GATHER), (MOST - 4, OPT_GATHER)].map(|(before, name)| (before, format!("{name} @3 8 1"))));
    for (before, case) in cases {
        f.lend_pattern('o', &paint(7, 251), 524_288);
        f.ask(&format!("extend_constant 0 0 0 {before} 1"));
        f.ask(&format!("+ {case}"));
        ends(f);
    }
    f.lend_pattern('o', &paint(7, 251), 524_288);
    for n in [MOST, MOST + 1] {
        f.ask(&format!("extend_constant 0 0 0 {n} 1 o:524287"));
    }
    f.lend('o', &[]);
}
