//! Plain versions of the calls on run ends, with the same checks, called out of line, by words: a run that is read is put into the word in
//! progress, and words between are filled; the flags that differ from the one before them are the set bits of a word that is xored with
//! itself shifted by one.

/// The most flags of a mask, and the largest start.
const LIMIT: usize = 4_194_304;

/// A list of flags in lent bytes.
#[derive(Clone, Copy)]
pub struct Flags<'a> {
    pub bytes: &'a [u8],
    pub start: usize,
    pub length: usize,
}

impl Flags<'_> {
    fn in_their_bytes(self) -> bool {
        self.start <= LIMIT && self.length <= LIMIT && self.start + self.length <= 8 * self.bytes.len()
    }

    /// Returns the 64 flags from flag j on, zeros past the end of the bytes.
    #[inline(always)]
    fn word(self, j: usize) -> u64 {
        let (at, shift) = ((self.start + j) / 8, (self.start + j) % 8);
        let load = |at: usize| u64::from_le_bytes(self.bytes[at..at + 8].try_into().unwrap());
        if at + 9 <= self.bytes.len() {
            return load(at) >> shift | load(at + 1) << (8 - shift);
        }
        let mut last = [0; 16];
        let rest = &self.bytes[at.min(self.bytes.len())..];
        last[..rest.len()].copy_from_slice(rest);
        (u128::from_le_bytes(last) >> shift) as u64
    }

    /// Returns the flags of word number i, as set bits, that differ from the flag before them; `before` is that before the word.
    #[inline(always)]
    fn turns(self, i: usize, before: &mut u64) -> u64 {
        let word = self.word(64 * i);
        let turns = word ^ (word << 1 | *before);
        *before = word >> 63;
        turns & cut(self.length - 64 * i)
    }

    /// Returns the number of runs: one more than the flags that differ from the next one. Two loads have a word and that a flag later.
    fn runs(self) -> usize {
        let Some(pairs) = self.length.checked_sub(1) else { return 0 };
        let (first, shift, whole) = (self.start / 8, self.start % 8, pairs / 64);
        let words = |from: usize| self.bytes[from..].chunks_exact(8).map(|eight| u64::from_le_bytes(eight.try_into().unwrap()));
        let differ = |low: u64, high: u64| (low >> shift | high << (8 - shift)) ^ (low >> (shift + 1) | high << (7 - shift));
        let turns: u32 = words(first).zip(words(first + 1)).take(whole).map(|(low, high)| differ(low, high).count_ones()).sum();
        let rest = (self.word(64 * whole) ^ self.word(64 * whole + 1)) & !(u64::MAX << (pairs % 64));
        (turns + rest.count_ones()) as usize + 1
    }
}

/// Returns a mask of the first n bits of a word, all if there are fewer.
fn cut(n: usize) -> u64 {
    u64::MAX >> (64 - n.min(64))
}

fn put(out: &mut [u8], i: usize, word: u64) {
    out[8 * i..8 * i + 8].copy_from_slice(&word.to_le_bytes());
}

/// Returns whether ends are positive and rise, and the last one is at least n; with no ends, whether n is 0.
fn ends_hold(ends: &[i32], n: usize) -> bool {
    let (Some(&first), Some(&last)) = (ends.first(), ends.last()) else { return n == 0 };
    first > 0 && ends.windows(2).all(|two| two[0] < two[1]) && n <= last as usize
}

/// Writes the flags that run ends and values have, and returns how many there are.
#[inline(never)]
pub fn read(ends: &[i32], values: Flags, length: usize, out: &mut [u8]) -> Option<usize> {
    let within = values.in_their_bytes() && length <= LIMIT;
    if !within || !ends_hold(ends, length) || ends.len() != values.length {
        return None;
    }
    let out = out.get_mut(..length.div_ceil(64) * 8)?;
    let (mut word, mut from, mut bits) = (0, 0, 0);
    for (k, &end) in ends.iter().enumerate() {
        if k % 64 == 0 {
            bits = values.word(k);
        }
        let fill = (bits & 1).wrapping_neg();
        bits >>= 1;
        let end = (end as usize).min(length);
        word |= fill << (from % 64);
        let (first, last) = (from / 64, end / 64);
        if first < last {
            put(out, first, word);
            if first + 1 < last {
                out[8 * first + 8..8 * last].fill(fill as u8);
            }
            word = fill;
        }
        word &= !(u64::MAX << (end % 64));
        from = end;
        if end == length {
            break;
        }
    }
    if !length.is_multiple_of(64) {
        put(out, length / 64, word);
    }
    Some(length)
}

/// Writes the ends and the values of the fewest runs, and returns how many there are.
#[inline(never)]
pub fn write(flags: Flags, ends: &mut [i32], out: &mut [u8]) -> Option<usize> {
    if !flags.in_their_bytes() {
        return None;
    }
    let runs = flags.runs();
    let ends = ends.get_mut(..runs)?;
    let out = out.get_mut(..runs.div_ceil(64) * 8)?;
    let first = flags.word(0) & 1;
    let (mut at, mut before) = (0, first);
    for i in 0..flags.length.div_ceil(64) {
        let mut turns = flags.turns(i, &mut before);
        while turns != 0 {
            ends[at] = (64 * i) as i32 + turns.trailing_zeros() as i32;
            at += 1;
            turns &= turns - 1;
        }
    }
    if let Some(last) = ends.last_mut() {
        *last = flags.length as i32;
    }
    let alternating = if first == 1 { 0x5555_5555_5555_5555 } else { 0xAAAA_AAAA_AAAA_AAAA };
    for i in 0..out.len() / 8 {
        put(out, i, alternating & cut(runs - 64 * i));
    }
    Some(runs)
}

/// The plain versions, compared with flag by flag.
#[cfg(test)]
mod tests {
    use super::{Flags, read, write};

    fn below(seed: &mut u64, bound: u64) -> u64 {
        *seed = seed.wrapping_mul(6_364_136_223_846_793_005).wrapping_add(1_442_695_040_888_963_407);
        (*seed >> 33) % bound
    }

    /// Returns `length` flags in runs of 1 to `most`.
    fn drawn(seed: &mut u64, length: usize, most: u64) -> Vec<bool> {
        let mut flags = Vec::new();
        let mut flag = below(seed, 2) == 1;
        while flags.len() < length {
            flags.resize(flags.len() + 1 + below(seed, most) as usize, flag);
            flag = !flag;
        }
        flags.truncate(length);
        flags
    }

    fn packed(flags: &[bool], start: usize) -> Vec<u8> {
        let mut bytes = vec![0xFF; (start + flags.len()).div_ceil(8)];
        for (j, flag) in flags.iter().enumerate() {
            if !flag {
                bytes[(start + j) / 8] &= !(1 << ((start + j) % 8));
            }
        }
        bytes
    }

    fn frozen(flags: &[bool]) -> Vec<u8> {
        let mut bytes = packed(flags, 0);
        if let Some(last) = bytes.last_mut().filter(|_| !flags.len().is_multiple_of(8)) {
            *last &= (1 << (flags.len() % 8)) - 1;
        }
        bytes.resize(flags.len().div_ceil(64) * 8, 0);
        bytes
    }

    fn runs_of(flags: &[bool]) -> (Vec<i32>, Vec<bool>) {
        let ends: Vec<usize> = (1..=flags.len()).filter(|&p| flags.get(p) != Some(&flags[p - 1])).collect();
        (ends.iter().map(|&end| end as i32).collect(), ends.iter().map(|&end| flags[end - 1]).collect())
    }

    fn flag_at(ends: &[i32], values: &[bool], p: usize) -> bool {
        values[ends.iter().position(|&end| end as usize > p).unwrap()]
    }

    #[test]
    fn flag_by_flag() {
        let mut seed = 1;
        for length in (0..200).chain([1_000, 4_096]) {
            for most in [1, 2, 10, 40, 300] {
                let start = below(&mut seed, 8) as usize;
                let flags = drawn(&mut seed, length, most);
                let (ends, values) = runs_of(&flags);
                let (mut places, mut out) = (vec![-1; ends.len()], vec![0xA5; ends.len().div_ceil(64) * 8]);
                let bytes = packed(&flags, start);
                assert_eq!(write(Flags { bytes: &bytes, start, length }, &mut places, &mut out), Some(ends.len()));
                assert_eq!((&places, &out), (&ends, &frozen(&values)));
                if let Some(short) = ends.len().checked_sub(1) {
                    assert_eq!(write(Flags { bytes: &bytes, start, length }, &mut places[..short], &mut out), None);
                    let room = out.len() - 1;
                    assert_eq!(write(Flags { bytes: &bytes, start, length }, &mut places, &mut out[..room]), None);
                }
                let bytes = packed(&values, start);
                let mut out = vec![0xA5; length.div_ceil(64) * 8];
                assert_eq!(read(&ends, Flags { bytes: &bytes, start, length: ends.len() }, length, &mut out), Some(length));
                assert_eq!(out, frozen(&flags));
            }
        }
    }

    #[test]
    fn any_ends() {
        let mut seed = 2;
        for _ in 0..2_000 {
            let many = below(&mut seed, 150) as usize;
            let most = 1 + below(&mut seed, 200);
            let mut last = 0;
            let ends: Vec<i32> = (0..many)
                .map(|_| {
                    last += 1 + below(&mut seed, most) as i32;
                    last
                })
                .collect();
            let values: Vec<bool> = (0..many).map(|_| below(&mut seed, 2) == 1).collect();
            let (start, length) = (below(&mut seed, 8) as usize, below(&mut seed, last as u64 + 1) as usize);
            let bytes = packed(&values, start);
            let flags: Vec<bool> = (0..length).map(|p| flag_at(&ends, &values, p)).collect();
            let mut out = vec![0xA5; length.div_ceil(64) * 8];
            assert_eq!(read(&ends, Flags { bytes: &bytes, start, length: many }, length, &mut out), Some(length));
            assert_eq!(out, frozen(&flags));
        }
    }

    #[test]
    fn broken_ends() {
        let values = Flags { bytes: &[1], start: 0, length: 2 };
        for (ends, length) in [([0, 5], 5), ([-1, 5], 5), ([3, 3], 3), ([5, 3], 3), ([3, 4], 5)] {
            assert_eq!(read(&ends, values, length, &mut [0; 8]), None);
        }
        assert_eq!(read(&[5], values, 5, &mut [0; 8]), None);
        assert_eq!(read(&[], Flags { length: 0, ..values }, 1, &mut [0; 8]), None);
        assert_eq!(read(&[3, 5], values, 5, &mut [0; 7]), None);
        assert_eq!(read(&[], Flags { length: 0, ..values }, 0, &mut []), Some(0));
    }
}
