//! Requests by chance: borders, limits and long spans.

use crate::choices::{Choices, Random};
use crate::style::Style;
use model::LIMIT;

const BORDERS: [usize; 14] = [0, 1, 7, 8, 9, 31, 32, 33, 63, 64, 65, 127, 128, 129];
const EXTREMES: [usize; 9] =
    [LIMIT - 1, LIMIT, LIMIT + 1, u32::MAX as usize, 1 << 63, usize::MAX - 63, usize::MAX - 32, usize::MAX - 31, usize::MAX];

/// Returns a number at a limit of the interface or of the machine.
pub fn extreme(random: &mut Random) -> usize {
    random.one_of(&EXTREMES)
}

/// Requests by chance: mostly short spans and borders of bytes and words, sometimes thousands of flags, rarely up to the limit.
pub struct Wide<'a> {
    pub random: &'a mut Random,
    /// The number of flags of the longest spans, which are drawn once in ten thousand times.
    pub longest: usize,
}

impl Choices for Wide<'_> {
    fn below(&mut self, n: usize) -> usize {
        self.random.below(n)
    }
}

impl Style for Wide<'_> {
    fn length(&mut self) -> usize {
        match self.below(100_000) {
            0..50_000 => self.below(71),
            50_000..75_000 => self.one_of(&BORDERS),
            75_000..96_000 => self.below(400),
            96_000..99_990 => self.below(5_000),
            _ => self.longest - self.below(130) * self.below(2),
        }
    }

    fn beside(&mut self, length: usize) -> usize {
        if self.random.once_in(20) { self.length() } else { length }
    }

    fn start(&mut self) -> usize {
        match self.below(10) {
            0..4 => self.below(16),
            4..6 => self.one_of(&BORDERS),
            6..8 => self.below(300),
            _ => 0,
        }
    }

    fn address(&mut self) -> usize {
        self.below(8)
    }

    fn bytes(&mut self, start: usize, length: usize) -> Vec<u8> {
        let many = (start + length).div_ceil(8) + self.one_of(&[0, 0, 1, 3, 9]);
        self.fill(many)
    }

    /// Returns bytes with half of the bits set, few, nearly all, none, all, or runs of some words.
    fn fill(&mut self, many: usize) -> Vec<u8> {
        let kind = self.below(8);
        let mut run = 0;
        let mut words = std::iter::repeat_with(|| {
            let word = self.random.word();
            match kind {
                0 | 1 => word,
                2 => word & self.random.word() & self.random.word() & self.random.word(),
                3 => word | self.random.word() | self.random.word() | self.random.word(),
                4 => 0,
                5 => u64::MAX,
                _ if word.is_multiple_of(4) => {
                    let begins = run ^ (u64::MAX << (word >> 58));
                    run = !run;
                    begins
                }
                _ => run,
            }
        });
        let mut bytes: Vec<u8> = words.by_ref().take(many.div_ceil(8)).flat_map(u64::to_le_bytes).collect();
        bytes.truncate(many);
        bytes
    }

    fn zeros(&mut self, zeros: usize, length: usize) -> Option<usize> {
        match self.below(20) {
            0..8 => None,
            8..16 => Some(zeros),
            16..19 => Some(self.below(length + 1)),
            _ => Some(length + 1),
        }
    }

    fn position(&mut self, length: usize) -> usize {
        match self.below(20) {
            0..12 => self.below(length + 1),
            12..15 => (self.below(length / 32 + 1) * 32 + 1).saturating_sub(self.below(3)),
            15..18 => length + self.below(70),
            18 => self.one_of(&BORDERS),
            _ => extreme(self.random),
        }
    }

    fn inside(&mut self, length: usize) -> usize {
        if self.random.once_in(8) { self.position(length) } else { self.below(length + 1) }
    }

    /// Returns once in three times the fewest flags for which a slice counts again, or one more or fewer.
    fn kept(&mut self, length: usize) -> Option<usize> {
        let border = length.saturating_sub((length / 5).max(32));
        self.random.once_in(3).then(|| (border + 1).saturating_sub(self.below(3)).min(length))
    }

    fn builder_length(&mut self) -> usize {
        match self.below(4) {
            0 => self.one_of(&BORDERS),
            1 => self.below(1_000),
            _ => self.below(130),
        }
    }

    fn room(&mut self, needed: usize) -> usize {
        needed + self.one_of(&[0, 0, 0, 1, 8, 24])
    }

    /// Returns exactly as many entries as are needed, too few or too many.
    fn entries(&mut self, many: usize) -> usize {
        match self.below(4) {
            0 => many,
            1 => many + self.below(70),
            _ => self.below(many + 1),
        }
    }

    fn word(&mut self) -> u64 {
        let word = self.random.word();
        match self.below(5) {
            0 => word & self.random.word() & self.random.word(),
            1 => 0,
            2 => u64::MAX,
            _ => word,
        }
    }

    fn many(&mut self) -> usize {
        match self.below(10) {
            0..8 => self.below(40),
            8 => self.one_of(&BORDERS),
            _ => self.below(300),
        }
    }
}
