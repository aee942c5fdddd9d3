//! The requests' numbers and flags, drawn from a seed by SplitMix64.

/// Lengths at and around whole bytes, half words and words.
pub const LENGTHS: [usize; 22] = [0, 1, 2, 7, 8, 9, 31, 32, 33, 63, 64, 65, 66, 127, 128, 129, 191, 192, 193, 255, 256, 257];

/// The kinds of flags: all zero, all one, alternating, each at random, few ones, few zeros, runs.
#[derive(Clone, Copy, PartialEq)]
pub enum Kind {
    Zeros,
    Ones,
    Alternating,
    Random,
    FewOnes,
    FewZeros,
    Runs,
}

pub const KINDS: [Kind; 7] = [Kind::Zeros, Kind::Ones, Kind::Alternating, Kind::Random, Kind::FewOnes, Kind::FewZeros, Kind::Runs];

/// The state of the generator.
pub struct Draw(u64);

impl Draw {
    pub fn new(seed: u64) -> Self {
        Self(seed)
    }

    /// Returns the next word.
    pub fn word(&mut self) -> u64 {
        self.0 = self.0.wrapping_add(0x9e37_79b9_7f4a_7c15);
        let mut z = self.0;
        z = (z ^ z >> 30).wrapping_mul(0xbf58_476d_1ce4_e5b9);
        z = (z ^ z >> 27).wrapping_mul(0x94d0_49bb_1331_11eb);
        z ^ z >> 31
    }

    /// Returns a number below n.
    pub fn below(&mut self, n: usize) -> usize {
        (self.word() % n as u64) as usize
    }

    pub fn flag(&mut self) -> bool {
        self.below(2) == 1
    }

    /// Returns one of the values.
    pub fn pick<T: Copy>(&mut self, values: &[T]) -> T {
        values[self.below(values.len())]
    }

    /// Returns a length of at most `most`: half of the time one of `LENGTHS`, at times `most`.
    pub fn length(&mut self, most: usize) -> usize {
        match self.below(8) {
            0 => most,
            1..=4 => self.pick(&LENGTHS).min(most),
            _ => self.below(most + 1),
        }
    }

    /// Returns a start and a length inside `size` bytes.
    pub fn span(&mut self, size: usize) -> (usize, usize) {
        let start = self.below(8 * size.min(10) + 1).min(8 * size);
        (start, self.length(8 * size - start))
    }

    /// Returns a word, at times one with few or many ones.
    pub fn mixed_word(&mut self) -> u64 {
        match self.below(6) {
            0 => 0,
            1 => u64::MAX,
            2 => 1 << self.below(64),
            3 => self.word() & self.word() & self.word(),
            4 => self.word() | self.word() | self.word(),
            _ => self.word(),
        }
    }

    /// Returns `size` bytes whose flags are of a kind.
    pub fn bytes(&mut self, kind: Kind, size: usize) -> Vec<u8> {
        let flags: Vec<bool> = self.flags(kind, 8 * size);
        flags.chunks(8).map(|part| part.iter().rev().fold(0, |byte, &flag| byte << 1 | flag as u8)).collect()
    }

    fn flags(&mut self, kind: Kind, many: usize) -> Vec<bool> {
        let mut flags = Vec::new();
        while flags.len() < many {
            match kind {
                Kind::Zeros => flags.push(false),
                Kind::Ones => flags.push(true),
                Kind::Alternating => flags.push(flags.len() % 2 == 1),
                Kind::Random => flags.push(self.flag()),
                Kind::FewOnes => flags.push(self.below(20) == 0),
                Kind::FewZeros => flags.push(self.below(20) != 0),
                Kind::Runs => {
                    let flag = flags.last() != Some(&true);
                    let run = 1 + self.below(70);
                    flags.extend(std::iter::repeat_n(flag, run));
                }
            }
        }
        flags.truncate(many);
        flags
    }
}
