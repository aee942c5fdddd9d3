//! Plain lists of flags for the tests, how they are made and packed. Nothing here calls the library.

/// Numbers from a fixed generator.
pub struct Random(pub u64);

impl Random {
    pub fn below(&mut self, bound: usize) -> usize {
        self.0 = self.0.wrapping_mul(6_364_136_223_846_793_005).wrapping_add(1_442_695_040_888_963_407);
        ((self.0 >> 33) as usize) % bound
    }

    pub fn flag(&mut self) -> bool {
        self.below(2) == 1
    }

    pub fn flags(&mut self, length: usize) -> Vec<bool> {
        (0..length).map(|_| self.flag()).collect()
    }

    /// Returns `length` flags in runs of 1 to 40.
    pub fn runs(&mut self, length: usize) -> Vec<bool> {
        let mut flags = Vec::new();
        let mut flag = self.flag();
        while flags.len() < length {
            let run = 1 + self.below(40);
            flags.extend(std::iter::repeat_n(flag, run.min(length - flags.len())));
            flag = !flag;
        }
        flags
    }
}

/// Returns lists of `length` flags: all zeros, all ones, random flags, and random runs.
pub fn patterns(length: usize) -> [Vec<bool>; 4] {
    let mut random = Random(length as u64);
    [vec![false; length], vec![true; length], random.flags(length), random.runs(length)]
}

/// Returns bytes with the flags starting at bit `start`. All other bits are `around`, so that a read of one too many is noticed.
pub fn packed(flags: &[bool], start: usize, around: bool) -> Vec<u8> {
    let mut bytes = vec![if around { 0xFF } else { 0 }; (start + flags.len()).div_ceil(8)];
    for (j, &flag) in flags.iter().enumerate() {
        let (byte, bit) = ((start + j) / 8, 1 << ((start + j) % 8));
        bytes[byte] = if flag { bytes[byte] | bit } else { bytes[byte] & !bit };
    }
    bytes
}

pub fn zeros(flags: &[bool]) -> usize {
    flags.iter().filter(|flag| !**flag).count()
}

pub fn positions(flags: &[bool]) -> Vec<usize> {
    (0..flags.len()).filter(|&i| flags[i]).collect()
}

/// Returns the maximal runs of ones as (start, length).
pub fn runs(flags: &[bool]) -> Vec<(usize, usize)> {
    let mut runs: Vec<(usize, usize)> = Vec::new();
    for i in positions(flags) {
        match runs.last_mut() {
            Some((start, length)) if *start + *length == i => *length += 1,
            _ => runs.push((i, 1)),
        }
    }
    runs
}

/// Returns `width` flags starting at `index` as a word, the first in the lowest bit.
pub fn word(flags: &[bool], index: usize, width: usize) -> u64 {
    flags.iter().skip(index).take(width).enumerate().map(|(i, &flag)| u64::from(flag) << i).sum()
}
