//! Run ends: every list of ends and of values for short lists, every short list written, ends that break a rule, runs about a word, lists
//! written and read again, counts of every kind, places one short, numbers of every size, and several checks that fail.

use crate::file::File;
use crate::lists::{all_lists, every_list, packed};
use crate::masks::brought;
use crate::patterns::{MAX, MOST, paint, stripes, turned, whole};
use crate::several::choices;
use crate::token::{Token, list, show};
use model::flag_at;

/// Ends at which each rule holds or is broken for lengths up to 7.
const ENDS: [i32; 10] = [i32::MIN, -5, -1, 0, 1, 2, 4, 5, 6, i32::MAX];

/// Three ends: two or three past the length 5, the last one below it, equal ones, falling ones, and ones that are not positive.
const THREE: [[i32; 3]; 22] = [
    [3, 7, 9],
    [7, 8, 9],
    [3, 4, 5],
    [1, 2, 4],
    [1, 2, 3],
    [3, 3, 5],
    [3, 5, 5],
    [5, 5, 5],
    [5, 3, 9],
    [3, 9, 7],
    [9, 7, 5],
    [0, 3, 5],
    [3, 0, 5],
    [3, 5, 0],
    [-1, 3, 5],
    [3, -1, 5],
    [3, 5, -1],
    [-3, -2, -1],
    [i32::MIN, 3, 5],
    [i32::MIN, i32::MIN + 1, i32::MAX],
    [1, i32::MAX, i32::MIN],
    [i32::MAX - 2, i32::MAX - 1, i32::MAX],
];

/// Starts, lengths and stated lengths of every size; the low bits of one at 2^32 are those of a length that holds.
const FAR: [u64; 12] = [0, 1, 3, 5, MOST - 1, MOST, MOST + 1, 1 << 32, (1 << 32) + 3, (1 << 32) + 5, 1 << 63, MAX];

/// Ends, a request in which several checks fail with them, and the number that refuses it.
const SEVERAL: [(&[i32], &str, u64); 16] = [
    (&[5, 3], "from_run_ends 3 2 ? 4194305", 1),
    (&[5, 3], "from_run_ends 3 2 ? 5 x:0", 2),
    (&[5, 3], "from_run_ends 3 2 3 5", 13),
    (&[5, 3], "from_run_ends 3 2 ? 5 o:7", 13),
    (&[5, 3], "from_run_ends 3 2 3 5 x:0 o:0", 2),
    (&[5, 3], "from_run_ends 4194305 2 3 5 x:0 o:0", 1),
    (&[2, 5], "from_run_ends 3 3 4 5", 13),
    (&[2, 5], "from_run_ends 3 3 4 5 x:0", 2),
    (&[2, 5], "from_run_ends 3 2 3 5 o:7", 3),
    (&[], "from_run_ends 3 0 1 1", 13),
    (&[], "from_run_ends 3 0 1 0", 3),
    (&[0], "to_run_ends 3 70 71 o:0", 3),
    (&[0], "to_run_ends 3 70 ? o:0", 9),
    (&[0], "to_run_ends 3 70 71 x:9 o:0", 2),
    (&[0], "to_run_ends 4194305 70 71 x:9 o:0", 1),
    (&[0], "to_run_ends 3 4194305 71 x:9 o:0", 1),
];

pub fn write(f: &mut File) {
    f.note("run ends: every list of ends for lengths up to ten, with every list of values");
    f.lend('o', &paint(7, 9));
    (1..=10).for_each(|runs| every_ends(f, runs));
    f.note("run ends: every list of up to twelve flags written");
    f.lend('o', &paint(7, 17));
    f.lend_ends(&[-7; 14]);
    f.ask("to_run_ends 0..17 0 ?,0");
    (1..=12).for_each(|n| every_list(f, n, |f, starts| f.ask(&format!("to_run_ends {starts} {n} ?"))));
    f.note("run ends: ends that break a rule, no runs, more and fewer values than ends");
    broken(f);
    f.note("run ends: runs about a byte and a word");
    long(f);
    f.note("run ends: lists written and read again");
    for bytes in [paint(0, 48), paint(1, 48), paint(2, 48), paint(3, 48), paint(10, 48), stripes(48)] {
        [0, 1, 2, 63, 64, 65, 127, 128, 129, 300].into_iter().for_each(|n| again(f, &bytes, n));
    }
    f.note("run ends: counts known, unknown and false, serials, places one short");
    counts(f);
    places(f);
    f.note("run ends: numbers of every size");
    numbers(f);
    f.note("run ends: the flag limit");
    limits(f);
    f.note("run ends: several checks at once");
    together(f);
}

/// Asks for every list of so many ends of which only the last reaches the length, up to 10, and is the length, one above or the largest
/// number, each with every list of values.
fn every_ends(f: &mut File, runs: u32) {
    f.lend('x', &packed(&all_lists(runs.into(), 1)));
    for n in runs as i32..=10 {
        for set in (0u32..1 << (n - 1)).filter(|set| set.count_ones() + 1 == runs) {
            for last in [n, n + 1, i32::MAX] {
                f.lend_ends(&(1..n).filter(|end| set >> (end - 1) & 1 == 1).chain([last]).collect::<Vec<i32>>());
                f.ask(&format!("from_run_ends 0..{} {runs} ? {n}", 1 << runs));
            }
        }
    }
}

fn broken(f: &mut File) {
    f.lend('x', &paint(10, 24));
    for end in ENDS {
        f.lend_ends(&[end]);
        f.ask("from_run_ends 3 1 ? 0..8");
        for next in ENDS {
            f.lend_ends(&[end, next]);
            f.ask("from_run_ends 3 2 ? 0..8");
        }
    }
    for ends in THREE {
        f.lend_ends(&ends);
        f.ask("from_run_ends 0..8 3 ? 0..11");
        f.ask("from_run_ends 3 3 ? 5");
    }
    f.lend_ends(&[2, 4, 7]);
    f.ask("from_run_ends 3 0..6 ? 0..9 e:0..5");
    for values in 0..6 {
        f.ask(&format!("from_run_ends 3 {values} ? 5"));
        f.ask(&format!("from_run_ends 3 {values} ? 4 e:2"));
    }
    f.lend_ends(&[]);
    f.ask("from_run_ends 0..17 0..2 ?,0 0..3 o:0,7,17");
    for length in [0, 1] {
        f.ask(&format!("from_run_ends 3 0 ? {length} o:0"));
        f.ask(&format!("from_run_ends 3 0 0 {length}"));
        f.ask(&format!("from_run_ends 3 1 ? {length}"));
    }
}

/// Asks for three runs of every such length, read up to the last end and short of it, with every list of values; and for lists written: of
/// every length up to 200, and all zeros but one flag about the end of a word.
fn long(f: &mut File) {
    const RUNS: [i32; 6] = [1, 8, 63, 64, 65, 130];
    f.lend('o', &paint(7, 57));
    f.lend('x', &packed(&all_lists(3, 1)));
    for (first, second, third) in RUNS.iter().flat_map(|a| RUNS.iter().flat_map(move |b| RUNS.iter().map(move |c| (a, b, c)))) {
        let two = first + second;
        f.lend_ends(&[*first, two, two + third]);
        let lengths = [0, 1, *first, two, two + 1, two + third - 1, two + third].map(|length| length as u64);
        f.ask(&format!("from_run_ends 0..8 3 ? {}", list(&lengths)));
    }
    f.lend_ends(&[-7; 202]);
    f.lend('o', &paint(7, 33));
    for bytes in [paint(0, 40), paint(1, 40), paint(2, 40), paint(3, 40), paint(10, 40), stripes(40)] {
        f.lend('x', &bytes);
        f.ask("to_run_ends 0..8 0..201 ?");
        f.ask("to_run_ends 3 129 ?");
    }
    for flag in [0, 1, 62, 63, 64, 65, 66, 126, 127, 128, 129, 191, 192] {
        f.lend('x', &turned(0, 40, flag));
        f.ask("to_run_ends 0,3 62..68,126..132,190..196 ?");
    }
}

/// Writes the n flags from flag 3 on as run ends and reads these: the list of flags is restored.
fn again(f: &mut File, bytes: &[u8], n: u64) {
    f.lend('x', bytes);
    f.lend('o', &paint(7, 49));
    f.lend_ends(&[-7; 302]);
    f.ask(&format!("to_run_ends 3 {n} ? s:5"));
    f.lend_left('x');
    f.lend_left_ends();
    f.ask(&format!("from_run_ends @3 {n} e:{} s:5", runs(bytes, 3, n)));
    assert_eq!(f.last[0], Token::Number(0), "what was written is refused");
    assert!((0..n).all(|j| flag_at(&f.left, j as usize) == flag_at(bytes, j as usize + 3)), "another list");
}

/// Returns how many runs of equal flags there are.
fn runs(bytes: &[u8], start: u64, n: u64) -> usize {
    let flags: Vec<bool> = (start..start + n).map(|j| flag_at(bytes, j as usize)).collect();
    flags.chunk_by(|a, b| a == b).count()
}

/// Asks with each kind of count, and with serials.
fn counts(f: &mut File) {
    f.lend('o', &paint(7, 33));
    f.lend_ends(&(1..=70).map(|k| 2 * k).collect::<Vec<i32>>());
    for kind in [0, 1, 10] {
        let bytes = paint(kind, 24);
        f.lend('x', &bytes);
        f.ask(&format!("from_run_ends 0..8 70 {} 0,139,140,141", brought(&bytes, 3, 70).join(",")));
        f.ask(&format!("to_run_ends 0..8 70 {}", brought(&bytes, 3, 70).join(",")));
        for count in brought(&bytes, 3, 70) {
            f.ask(&format!("from_run_ends 3 70 {count} 139"));
            f.ask(&format!("to_run_ends 3 70 {count}"));
        }
    }
    for serial in ["0,1,4294967295", "7"] {
        f.ask(&format!("from_run_ends 3 70 ? 139 s:{serial}"));
        f.ask(&format!("from_run_ends 3 70 ? 0 s:{serial}"));
        f.ask(&format!("from_run_ends 3 70 ? 141 s:{serial}"));
        f.ask(&format!("from_run_ends 3 0 0 0 e:0 s:{serial}"));
        f.ask(&format!("to_run_ends 3 70 ? s:{serial}"));
        f.ask(&format!("to_run_ends 3 0 ? s:{serial}"));
        f.ask(&format!("to_run_ends 3 70 ? e:0 s:{serial}"));
    }
}

/// Asks with outputs that are one short, exactly full and longer, also both one short.
fn places(f: &mut File) {
    f.lend('o', &paint(7, 33));
    f.lend('x', &paint(2, 24));
    for n in [1, 2, 64, 65, 128, 129] {
        let size = whole(n);
        f.lend_ends(&[i32::MAX]);
        f.ask(&format!("from_run_ends 3 1 ? {n} o:0..{}", size + 2));
        f.ask(&format!("from_run_ends 3 1 ? {n} o:{}", size - 1));
        f.ask(&format!("from_run_ends 3 1 ? {n} o:{size}"));
        f.lend_ends(&vec![-7; n as usize + 2]);
        f.ask(&format!("to_run_ends 3 {n} ? e:{}..{} o:{}..{}", n - 1, n + 2, size - 1, size + 2));
        for (ends, bytes) in [(n - 1, size), (n, size - 1), (n - 1, size - 1), (n, size)] {
            f.ask(&format!("to_run_ends 3 {n} ? e:{ends} o:{bytes}"));
        }
    }
    f.ask("to_run_ends 3 0 ? e:0 o:0");
}

fn numbers(f: &mut File) {
    let far = list(&FAR);
    f.lend_ends(&[2, 4, 5]);
    for number in FAR {
        let number = show(number);
        f.ask(&format!("from_run_ends 3 3 ? {number}"));
        f.ask(&format!("from_run_ends 3 {number} ? 5"));
        f.ask(&format!("from_run_ends {number} 3 ? 5"));
        f.ask(&format!("to_run_ends {number} 3 ?"));
        f.ask(&format!("to_run_ends 3 {number} ?"));
    }
    f.ask(&format!("from_run_ends {far} {far} ?,0,{} {far}", show(MAX)));
    f.ask(&format!("to_run_ends {far} {far} ?,0,{}", show(MAX)));
}

fn limits(f: &mut File) {
    f.lend_pattern('x', &paint(13, 509), 524_352);
    f.lend_pattern('o', &paint(7, 251), 524_352);
    let most = MOST as i32;
    for ends in [&[most][..], &[most + 1], &[i32::MAX], &[most - 1], &[1, most], &[most - 1, most], &[most, most + 1]] {
        f.lend_ends(ends);
        let many = ends.len();
        f.ask(&format!("from_run_ends {MOST} {many} ? {MOST}"));
        f.ask(&format!("from_run_ends {MOST} {many} ? {}", MOST + 1));
        f.ask(&format!("from_run_ends {},{MOST},{} {many} ? 5,{}", MOST - 1, MOST + 1, MOST + 1));
    }
    f.lend_ends(&[i32::MAX]);
    f.ask(&format!("from_run_ends 3 1 ? {MOST} o:524287"));
    f.ask(&format!("from_run_ends 512,513 {MOST},{} ? 5", MOST + 1));
    f.lend_ends(&[-7; 14]);
    f.ask(&format!("to_run_ends {},{MOST},{} 9 ?", MOST - 1, MOST + 1));
    f.ask(&format!("to_run_ends 513 {MOST} ?"));
    f.ask(&format!("to_run_ends 0 {} ?", MOST + 1));
    f.lend_pattern('x', &[0], 524_352);
    f.ask(&format!("to_run_ends 3 {MOST} ?"));
    f.lend_pattern('x', &[0, 0, 0, 0, 0, 0, 0, 0, 255, 255, 255, 255, 255, 255, 255, 255], 524_352);
    f.lend_ends(&[-7; 65_536]);
    f.ask(&format!("to_run_ends 0 {MOST} ?"));
    f.ask(&format!("to_run_ends 0 {MOST} ? e:65535"));
    f.ask(&format!("to_run_ends 0 {MOST} ? o:8191"));
    f.ask(&format!("to_run_ends 5 {MOST} ?"));
    f.lend_pattern('x', &[[0; 512], [255; 512]].concat(), 524_352);
    f.ask(&format!("to_run_ends 0 {MOST} ?"));
    f.lend_left('x');
    f.lend_left_ends();
    f.ask(&format!("from_run_ends @3 {MOST} e:1024"));
}

fn together(f: &mut File) {
    f.lend_pattern('x', &paint(8, 509), 524_352);
    f.lend('o', &paint(7, 33));
    for (ends, request, number) in SEVERAL {
        f.lend_ends(ends);
        f.ask(request);
        assert_eq!(f.last[0], Token::Number(number), "{request}");
    }
    f.lend_ends(&(1..70).chain([i32::MAX]).collect::<Vec<i32>>());
    choices(f, "from_run_ends {3|4194305|1} 70 {?|71|3} {130|4194305|1} x:{524352|9|2} e:{70|69|13} o:{24|23|9}");
    let many = runs(&paint(8, 509), 3, 70);
    let size = whole(many as u64);
    let outputs = format!("e:{{{many}|{}|9}} o:{{{size}|{}|9}}", many - 1, size - 1);
    choices(f, &format!("to_run_ends {{3|4194305|1}} 70 {{?|71|3}} x:{{524352|9|2}} {outputs}"));
    f.lend('o', &[]);
    f.lend_ends(&[]);
}
