//! Plain versions of the calls on a grid, with the same checks, called out of line: blocks of 64 by 64 flags in six rounds of exchange,
//! ones of columns by bit planes, ones of rows by words, a column flag by flag. Of few flags both are loops over single flags.

/// The most flags of a mask, and the largest start.
const LIMIT: usize = 4_194_304;

/// The most flags of a grid that is transposed, or whose columns are counted, flag by flag.
const FEW: usize = 512;

/// A mask of `length` flags read as rows and columns.
#[derive(Clone, Copy)]
pub struct Grid<'a> {
    pub bytes: &'a [u8],
    pub start: usize,
    pub length: usize,
    pub rows: usize,
    pub columns: usize,
}

impl Grid<'_> {
    /// Makes the checks of every call: starts and lengths, the bytes lent, and the product.
    fn checked(self) -> Option<Self> {
        let within = self.start <= LIMIT && self.length <= LIMIT && self.start + self.length <= 8 * self.bytes.len();
        (within && self.rows.checked_mul(self.columns) == Some(self.length)).then_some(self)
    }

    fn flag(self, j: usize) -> bool {
        let bit = self.start + j;
        self.bytes[bit / 8] >> (bit % 8) & 1 == 1
    }

    /// Returns the 64 flags from flag j on, zeros past the end of the bytes.
    #[inline(always)]
    fn word(self, j: usize) -> u64 {
        let (at, shift) = ((self.start + j) / 8, (self.start + j) % 8);
        let load = |at: usize| u64::from_le_bytes(self.bytes[at..at + 8].try_into().unwrap());
        if at + 9 <= self.bytes.len() {
            return load(at) >> shift | load(at + 1) << (8 - shift);
        }
        let mut last = [0; 16];
        let rest = &self.bytes[at.min(self.bytes.len())..];
        last[..rest.len()].copy_from_slice(rest);
        (u128::from_le_bytes(last) >> shift) as u64
    }
}

/// Turns a block: in each round the two quarters off the diagonal of each square are exchanged.
fn turn(rows: &mut [u64; 64]) {
    const LOW: [u64; 6] = [
        0x5555_5555_5555_5555,
        0x3333_3333_3333_3333,
        0x0F0F_0F0F_0F0F_0F0F,
        0x00FF_00FF_00FF_00FF,
        0x0000_FFFF_0000_FFFF,
        0x0000_0000_FFFF_FFFF,
    ];
    for (k, low) in LOW.into_iter().enumerate().rev() {
        let half = 1 << k;
        for square in rows.chunks_exact_mut(2 * half) {
            let (upper, lower) = square.split_at_mut(half);
            for (x, y) in upper.iter_mut().zip(lower) {
                let lent = ((*x >> half) ^ *y) & low;
                *x ^= lent << half;
                *y ^= lent;
            }
        }
    }
}

/// Joins 64 flags to those from flag `bit` on.
fn put(out: &mut [u8], bit: usize, word: u64) {
    let (at, shift) = (bit / 8, bit % 8);
    if at + 9 <= out.len() {
        let joined = u64::from_le_bytes(out[at..at + 8].try_into().unwrap()) | word << shift;
        out[at..at + 8].copy_from_slice(&joined.to_le_bytes());
        out[at + 8] |= (word >> 1 >> (63 - shift)) as u8;
        return;
    }
    for (byte, part) in out[at..].iter_mut().zip((u128::from(word) << shift).to_le_bytes()) {
        *byte |= part;
    }
}

/// Returns the start of a row.
#[inline(never)]
pub fn row(grid: Grid, row: usize) -> Option<usize> {
    let Grid { start, rows, columns, .. } = grid.checked()?;
    (row < rows).then_some(start + row * columns)
}

/// Writes a column and returns its length.
#[inline(never)]
pub fn column(grid: Grid, column: usize, out: &mut [u8]) -> Option<usize> {
    let Grid { rows, columns, .. } = grid.checked()?;
    if column >= columns || out.len() < rows.div_ceil(64) * 8 {
        return None;
    }
    for i in 0..rows.div_ceil(64) {
        let flags = (0..(rows - 64 * i).min(64)).map(|j| u64::from(grid.flag((64 * i + j) * columns + column)) << j);
        out[8 * i..8 * i + 8].copy_from_slice(&flags.fold(0, |word, flag| word | flag).to_le_bytes());
    }
    Some(rows)
}

/// Writes the transposed grid and returns its length.
#[inline(never)]
pub fn transpose(grid: Grid, out: &mut [u8]) -> Option<usize> {
    let Grid { length, rows, columns, .. } = grid.checked()?;
    out.get_mut(..length.div_ceil(64) * 8)?.fill(0);
    if length <= FEW {
        for r in 0..rows {
            for c in 0..columns {
                let place = c * rows + r;
                out[place / 8] |= u8::from(grid.flag(r * columns + c)) << (place % 8);
            }
        }
        return Some(length);
    }
    for top in (0..rows).step_by(64) {
        for left in (0..columns).step_by(64) {
            let mut block = [0; 64];
            for (i, word) in block.iter_mut().enumerate().take(rows - top) {
                *word = grid.word((top + i) * columns + left);
            }
            turn(&mut block);
            for (i, word) in block.into_iter().enumerate().take(columns - left) {
                put(out, (left + i) * rows + top, word);
            }
        }
    }
    Some(length)
}

/// Writes the zeros of each row and returns how many rows there are.
#[inline(never)]
pub fn row_zeros(grid: Grid, counts: &mut [u32]) -> Option<usize> {
    let Grid { rows, columns, .. } = grid.checked()?;
    for (row, count) in counts.get_mut(..rows)?.iter_mut().enumerate() {
        let whole: u32 = (0..columns / 64).map(|i| grid.word(row * columns + 64 * i).count_ones()).sum();
        let rest = match columns % 64 {
            0 => 0,
            few => (grid.word(row * columns + columns - few) << (64 - few)).count_ones(),
        };
        *count = columns as u32 - whole - rest;
    }
    Some(rows)
}

fn full_add(x: u64, y: u64, z: u64) -> (u64, u64) {
    let u = x ^ y;
    (u ^ z, (x & y) | (u & z))
}

/// Adds four words to the digits p and q, and returns three digits.
fn add_four(p: u64, q: u64, words: &[u64]) -> [u64; 3] {
    let a = full_add(p, words[0], words[1]);
    let b = full_add(a.0, words[2], words[3]);
    let c = full_add(q, a.1, b.1);
    [b.0, c.0, c.1]
}

fn add(planes: &mut [u64], mut carry: u64) {
    for plane in planes {
        (*plane, carry) = (*plane ^ carry, *plane & carry);
    }
}

/// Returns nine planes of how many of at most 511 words have each flag set.
fn planes_of(words: &[u64]) -> [u64; 9] {
    let mut planes = [0; 9];
    let eights = words.chunks_exact(8);
    let rest = eights.remainder();
    for eight in eights {
        let a = add_four(planes[0], planes[1], &eight[..4]);
        let b = add_four(a[0], a[1], &eight[4..]);
        let c = full_add(planes[2], a[2], b[2]);
        (planes[0], planes[1], planes[2]) = (b[0], b[1], c.0);
        add(&mut planes[3..], c.1);
    }
    rest.iter().for_each(|word| add(&mut planes, *word));
    planes
}

/// Writes the zeros of each column and returns how many columns there are.
#[inline(never)]
pub fn column_zeros(grid: Grid, counts: &mut [u32]) -> Option<usize> {
    let Grid { length, rows, columns, .. } = grid.checked()?;
    let counts = counts.get_mut(..columns)?;
    counts.fill(rows as u32);
    if length <= FEW {
        for r in 0..rows {
            for (c, count) in counts.iter_mut().enumerate() {
                *count -= u32::from(grid.flag(r * columns + c));
            }
        }
        return Some(columns);
    }
    let mut words = [0; 511];
    for (band, counts) in counts.chunks_mut(64).enumerate() {
        for top in (0..rows).step_by(511) {
            let height = (rows - top).min(511);
            for (i, word) in words[..height].iter_mut().enumerate() {
                *word = grid.word((top + i) * columns + 64 * band);
            }
            let planes = planes_of(&words[..height]);
            for (c, count) in counts.iter_mut().enumerate() {
                let digit = |i: usize| ((planes[i] >> c & 1) as u32) << i;
                *count -= (0..9).map(digit).sum::<u32>();
            }
        }
    }
    Some(columns)
}
