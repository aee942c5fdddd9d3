//! The inputs: masks of a chosen length, start bit and kind of flags, equal for every side.

use original::bitmap::Bitmap;
use poruwhina::calls::Mask;

/// A small generator of numbers (xorshift), so that every run has the same inputs.
pub struct Words(u64);

impl Words {
    /// Returns the generator of a seed.
    pub fn new(seed: u64) -> Self {
        Words(seed.wrapping_mul(0x9E37_79B9_7F4A_7C15) | 1)
    }

    /// Returns the next number, below `limit`.
    pub fn below(&mut self, limit: u64) -> u64 {
        self.0 ^= self.0 << 13;
        self.0 ^= self.0 >> 7;
        self.0 ^= self.0 << 17;
        (self.0 >> 11) % limit
    }
}

/// The kinds of flags of a mask.
#[derive(Clone, Copy, PartialEq)]
pub enum Kind {
    Half,
    /// Alternating runs of zeros and ones, each of 1 to 63 flags.
    Runs,
    /// The same, each of 1 to 6,000 flags.
    LongRuns,
    /// One flag in 64 is set.
    Sparse,
    /// One flag in 64 is not set.
    Dense,
    Ones,
    Zeros,
}

impl Kind {
    /// Returns the name in the table.
    pub fn name(self) -> &'static str {
        match self {
            Kind::Half => "half set",
            Kind::Runs => "runs of 1 to 63",
            Kind::LongRuns => "runs of 1 to 6,000",
            Kind::Sparse => "1 in 64 set",
            Kind::Dense => "63 in 64 set",
            Kind::Ones => "all set",
            Kind::Zeros => "none set",
        }
    }

    /// Returns `length` flags of this kind.
    fn flags(self, length: usize, words: &mut Words) -> Vec<bool> {
        if matches!(self, Kind::Runs | Kind::LongRuns) {
            let longest = if self == Kind::Runs { 63 } else { 6_000 };
            let mut flags = Vec::with_capacity(length + longest);
            while flags.len() < length {
                let flag = flags.last().is_some_and(|last: &bool| !last);
                let run = 1 + words.below(longest as u64) as usize;
                flags.resize(flags.len() + run, flag);
            }
            flags.truncate(length);
            return flags;
        }
        let set_in_64 = match self {
            Kind::Half => 32,
            Kind::Sparse => 1,
            Kind::Dense => 63,
            Kind::Ones => 64,
            _ => 0,
        };
        (0..length).map(|_| words.below(64) < set_in_64).collect()
    }
}

/// A mask for every side: bytes with a span of them for ours and the plain loops, a bitmap of equal bytes for the original.
pub struct Input {
    padded: Vec<u8>,
    lent: usize,
    pub start: usize,
    pub length: usize,
    pub zeros: usize,
    /// The mask with its count unknown, as the Rust crate passes it to the library; in `counted`, with its count.
    pub mask: Mask,
    pub counted: Mask,
    pub bitmap: Bitmap,
    /// The mask as the Rust crate over the library has it.
    pub held: poruwhina::Bitmap,
    /// The bitmap before its zeros were counted. A clone of it has no count either.
    pub uncounted_bitmap: Bitmap,
}

impl Input {
    /// Returns a mask of drawn flags. The bits around the span are set, so that a side that reads them answers differently.
    pub fn new(kind: Kind, start: usize, length: usize, seed: u64) -> Self {
        let flags = kind.flags(length, &mut Words::new(seed));
        let lent = (start + length).div_ceil(64) * 8;
        let mut padded = vec![0xFF; lent + 16];
        for (j, flag) in flags.iter().enumerate() {
            if !flag {
                padded[(start + j) / 8] &= !(1 << ((start + j) % 8));
            }
        }
        let mut bitmap = Bitmap::try_new(padded[..lent].to_vec(), start + length).unwrap();
        bitmap.slice(start, length);
        let uncounted_bitmap = bitmap.clone();
        let zeros = bitmap.unset_bits();
        assert_eq!(zeros, flags.iter().filter(|flag| !**flag).count());
        let held = poruwhina::Bitmap::try_from_span(padded[..lent].to_vec(), start, length).unwrap();
        let mask = Mask { start, length, zeros: 0, known: 0, serial: 0 };
        let counted = Mask { zeros, known: 1, ..mask };
        Input { padded, lent, start, length, zeros, mask, counted, bitmap, held, uncounted_bitmap }
    }

    /// Returns the bytes lent: whole words, as a frozen mask has them.
    pub fn bytes(&self) -> &[u8] {
        &self.padded[..self.lent]
    }

    /// Returns the bytes lent with two more words after them, so that the plain loops need no care at the end.
    pub fn padded(&self) -> &[u8] {
        &self.padded
    }
}

/// Returns the flags of a span as words, zeros after the last flag: equal for two sides that wrote equal flags.
pub fn words_of(bytes: &[u8], start: usize, length: usize) -> Vec<u64> {
    let mut words = vec![0; length.div_ceil(64)];
    for j in 0..length {
        let flag = bytes[(start + j) / 8] >> ((start + j) % 8) & 1;
        words[j / 64] |= u64::from(flag) << (j % 64);
    }
    words
}

/// Returns the flags of a bitmap of the original as words.
pub fn words_of_bitmap(bitmap: &Bitmap) -> Vec<u64> {
    let (bytes, start, length) = bitmap.as_slice();
    words_of(bytes, start, length)
}
