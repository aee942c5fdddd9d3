//! Flags read from the ends of runs and one value for each run, and written as the fewest of them. A public function without a comment
//! models the call of its name.

use crate::{Answer, Checks, Lent, State, written};

/// Returns whether the ends are positive, each above the one before it, and the last at least the length; without ends, whether it is 0.
fn hold(ends: &[i32], length: usize) -> bool {
    let positive = ends.iter().all(|&end| end > 0);
    let rising = ends.windows(2).all(|two| two[0] < two[1]);
    positive && rising && ends.last().map_or(length == 0, |&last| last as i128 >= length as i128)
}

/// Returns the runs of equal flags, each as its end and its flag: one begins with each flag that differs from the flag before it.
fn runs(flags: &[bool]) -> Vec<(i32, bool)> {
    let begins: Vec<usize> = (0..flags.len()).filter(|&p| p == 0 || flags[p] != flags[p - 1]).collect();
    let ends = begins.iter().copied().skip(1).chain([flags.len()]);
    begins.iter().zip(ends).map(|(&begin, end)| (end as i32, flags[begin])).collect()
}

/// Writes the flags as frozen bytes, each the value of the first run whose end is above its position, and returns their mask.
pub fn from_run_ends(ends: &[i32], values: Lent, length: usize, out: &mut [u8]) -> Answer {
    let paired = ends.len() == values.mask.length;
    let checks = Checks::default().mask(values).limited(&[length as u128]).check(13, hold(ends, length) && paired);
    checks.holds(out, length as u128).answer(State::None, || {
        let of_runs = values.flags();
        let run = |p: i32| ends.iter().position(|&end| end > p).expect("an end above each position");
        let flags: Vec<bool> = (0..length as i32).map(|p| of_runs[run(p)]).collect();
        written(&flags, values.mask.serial, out)
    })
}

/// Writes where each run ends, and its flag as frozen bytes, and returns the mask of the runs' flags.
pub fn to_run_ends(lent: Lent, ends: &mut [i32], out: &mut [u8]) -> Answer {
    let checks = Checks::default().mask(lent);
    let runs = if checks.passed() { runs(&lent.flags()) } else { Vec::new() };
    let checks = checks.check(9, ends.len() >= runs.len()).holds(out, runs.len() as u128);
    checks.answer(State::None, || {
        ends.iter_mut().zip(&runs).for_each(|(end, run)| *end = run.0);
        let values: Vec<bool> = runs.iter().map(|run| run.1).collect();
        written(&values, lent.mask.serial, out)
    })
}
