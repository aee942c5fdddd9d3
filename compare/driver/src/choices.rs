//! The choices that make the numbers of a request: every combination one after another, or chance by a seed.

/// A source of choices.
pub trait Choices {
    /// Returns a number below `n`, which is at least 1.
    fn below(&mut self, n: usize) -> usize;

    fn flip(&mut self) -> bool {
        self.below(2) == 1
    }

    fn one_of<T: Copy>(&mut self, these: &[T]) -> T {
        these[self.below(these.len())]
    }
}

/// Every combination of choices, one after another. The caller makes its choices again for each combination; how many there are for a
/// number may depend on the earlier ones.
#[derive(Default)]
pub struct Every {
    path: Vec<(usize, usize)>,
    at: usize,
}

impl Every {
    /// Moves to the next combination; returns false after the last.
    pub fn advance(&mut self) -> bool {
        self.at = 0;
        while let Some((chosen, n)) = self.path.pop() {
            if chosen + 1 < n {
                self.path.push((chosen + 1, n));
                return true;
            }
        }
        false
    }
}

impl Choices for Every {
    fn below(&mut self, n: usize) -> usize {
        if self.at == self.path.len() {
            self.path.push((0, n));
        }
        self.at += 1;
        self.path[self.at - 1].0
    }
}

/// Numbers by chance (splitmix64); equal seeds and indices make equal numbers.
pub struct Random(u64);

impl Random {
    /// Returns the numbers of request `index` of a seed.
    pub fn new(seed: u64, index: u64) -> Self {
        let mut first = Self(seed.wrapping_mul(0xD134_2543_DE82_EF95) ^ index);
        Self(first.word())
    }

    /// Returns the next word.
    pub fn word(&mut self) -> u64 {
        self.0 = self.0.wrapping_add(0x9E37_79B9_7F4A_7C15);
        let mixed = (self.0 ^ (self.0 >> 30)).wrapping_mul(0xBF58_476D_1CE4_E5B9);
        let mixed = (mixed ^ (mixed >> 27)).wrapping_mul(0x94D0_49BB_1331_11EB);
        mixed ^ (mixed >> 31)
    }

    /// Returns true once in `n` times.
    pub fn once_in(&mut self, n: usize) -> bool {
        self.below(n) == 0
    }
}

impl Choices for Random {
    fn below(&mut self, n: usize) -> usize {
        ((u128::from(self.word()) * n as u128) >> 64) as usize
    }
}
