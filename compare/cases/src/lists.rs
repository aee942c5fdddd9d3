//! Every list of some flags, in bytes in which they overlap.

use crate::file::File;

/// Lends bytes with every list of n flags and asks at their starts: up to nine flags each list comes at all eight start bits, above that at
/// start bit 0 and then, over other bytes, at start bit 3.
pub fn every_list(f: &mut File, n: u64, ask: impl Fn(&mut File, &str)) {
    if n <= 9 {
        let mut flags = all_lists(n, 1);
        // Each copy begins three bits further in its byte than the one before it.
        while flags.len() % 8 != 3 {
            flags.push(false);
        }
        let flags = flags.repeat(8);
        f.lend('x', &packed(&flags));
        return ask(f, &format!("0..{}", flags.len() as u64 + 1 - n));
    }
    for start in [0, 3] {
        let flags = [vec![false; start], all_lists(n, 8)].concat();
        f.lend('x', &packed(&flags));
        ask(f, &format!("{start}..{}+8", flags.len() as u64 + 1 - n));
    }
}

/// Returns flags in which every list of n flags begins once at a multiple of `step`, which is 1 or 8: n zeros, and then, as long as there
/// are such, `step` flags after which the last n flags are a list that is new. Zeros are taken last.
pub fn all_lists(n: u64, step: u64) -> Vec<bool> {
    let mut flags = vec![false; n as usize];
    let mut met = vec![false; 1 << n];
    let mut last = 0;
    met[0] = true;
    while let Some(next) = (0..1 << step).rev().map(|more| last >> step | more << (n - step)).find(|&list: &usize| !met[list]) {
        met[next] = true;
        last = next;
        flags.extend((n - step..n).map(|j| next >> j & 1 == 1));
    }
    assert!(met.iter().all(|&met| met), "a list that does not come");
    flags
}

/// Returns flags as bytes.
pub fn packed(flags: &[bool]) -> Vec<u8> {
    flags.chunks(8).map(|part| part.iter().enumerate().map(|(j, &flag)| u8::from(flag) << j).sum()).collect()
}
