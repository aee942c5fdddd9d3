//! Run lists: masks taken apart into their runs and rebuilt by `extend_constant` only, unchanged and with a run's start moved.

use crate::file::File;
use crate::patterns::whole;
use crate::token::Token;

const LENGTHS: [u64; 11] = [0, 1, 2, 62, 63, 64, 65, 66, 127, 128, 129];

/// A run's start and length.
type Run = (u64, u64);

pub fn write(f: &mut File) {
    f.note("run lists: masks taken apart, rebuilt and compared; a run's start moved and saved");
    for n in LENGTHS {
        for (k, runs) in lists(n).into_iter().enumerate() {
            rebuild(f, n, &runs, k % 2 == 1);
        }
    }
}

/// Returns run lists inside n flags: no run, one over all, at the front, at the end, at both, two inside, and single flags three apart.
fn lists(n: u64) -> Vec<Vec<Run>> {
    let part = n.div_ceil(3);
    let mut lists = vec![
        vec![],
        vec![(0, n)],
        vec![(0, part)],
        vec![(n - part, part)],
        vec![(0, part), (n - part, part)],
        vec![(1, part), (part + 2, 1)],
        (0..n.min(6)).map(|k| (3 * k, 1)).collect(),
    ];
    lists.retain(|runs| is_run_list(n, runs));
    lists.dedup();
    lists
}

/// Returns whether the runs are at least one flag long, rising, at least one flag apart, and inside n flags.
fn is_run_list(n: u64, runs: &[Run]) -> bool {
    runs.iter().all(|&(start, length)| length > 0 && start + length <= n) && runs.windows(2).all(|two| two[0].0 + two[0].1 < two[1].0)
}

/// Takes a mask with these runs apart and rebuilds it; then moves the start of its first and its last run by one flag to either side, if
/// that is a run list.
fn rebuild(f: &mut File, n: u64, runs: &[Run], odd: bool) {
    let mask = lend(f, n, runs, odd);
    assert_eq!(listed(f, &mask), runs);
    save(f, n, runs, odd);
    f.lend_left('y');
    let saved = "@3";
    f.ask(&format!("eq {mask} {saved}"));
    assert_eq!(f.last[1], Token::Number(1));
    for (k, by) in (0..runs.len()).flat_map(|k| [(k, -1), (k, 1)]) {
        let mut moved = runs.to_vec();
        let Some(start) = moved[k].0.checked_add_signed(by) else { continue };
        moved[k] = (start, moved[k].1.wrapping_add_signed(-by));
        if is_run_list(n, &moved) && (k == 0 || k + 1 == runs.len()) {
            edit(f, n, &mask, runs, &moved, odd);
        }
    }
}

/// Saves edited runs, compares them with the mask that they came from, and takes them apart again.
fn edit(f: &mut File, n: u64, mask: &str, runs: &[Run], moved: &[Run], odd: bool) {
    save(f, n, moved, !odd);
    let saved = tokens(&f.last[f.last.len() - 3..]);
    f.lend_left('y');
    f.ask(&format!("eq {mask} {saved}"));
    assert_eq!(f.last[1], Token::Number(0));
    f.lend_left('x');
    assert_eq!(listed(f, &saved), moved);
    lend(f, n, runs, odd);
}

/// Lends a mask with these runs, with ones before and after it: counted and starting at bit 3, or neither. Returns it.
fn lend(f: &mut File, n: u64, runs: &[Run], counted: bool) -> String {
    let first = if counted { 3 } else { 0 };
    let mut bytes = vec![0xFF; (first + n).div_ceil(8) as usize];
    for j in (0..n).filter(|j| !runs.iter().any(|&(start, length)| (start..start + length).contains(j))) {
        bytes[((first + j) / 8) as usize] &= !(1 << ((first + j) % 8));
    }
    f.lend('x', &bytes);
    f.ask(&format!("try_new {first} {n}"));
    if !counted {
        return tokens(&f.last[f.last.len() - 3..]);
    }
    f.ask("unset_bits @3");
    tokens(&f.last[f.last.len() - 3..])
}

/// Returns the runs that a new cursor returns until there is none.
fn listed(f: &mut File, mask: &str) -> Vec<Run> {
    let mut runs = Vec::new();
    f.ask(&format!("SlicesIterator::new {mask}"));
    loop {
        f.ask("SlicesIterator::next @3");
        match f.last[1..3] {
            [Token::Number(start), Token::Number(length)] => runs.push((start, length)),
            _ => return runs,
        }
    }
}

/// Appends zeros for each gap, ones for each run and zeros for the rest, in an output of exactly the size needed, and freezes them. With
/// `leave_out` an empty gap has no call.
fn save(f: &mut File, n: u64, runs: &[Run], leave_out: bool) {
    f.lend('o', &vec![0xAA; whole(n) as usize]);
    f.ask("BitmapBuilder::new");
    let (mut place, mut go_on) = (0, "");
    for (start, length) in runs.iter().copied().chain([(n, 0)]) {
        for (flags, flag) in [(start - place, 0), (length, 1)] {
            let made = if flag == 1 { start < n } else { flags > 0 || !leave_out };
            if made {
                f.ask(&format!("{go_on}extend_constant @3 {flags} {flag}"));
                assert_eq!(f.last[0], Token::Number(0));
                go_on = "+ ";
            }
        }
        place = start + length;
    }
    f.ask(&format!("{go_on}freeze @3"));
}

/// Returns the last three numbers of an answer, its record, as text.
fn tokens(record: &[Token]) -> String {
    record.iter().map(Token::to_string).collect::<Vec<String>>().join(" ")
}
