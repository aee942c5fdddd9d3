//! The loops over words, as lists of flags: stretches of lent bytes read, combined and written. No check is made: a stretch reads false
//! past the end of its bytes, what does not fit an output is left out, and the bytes of an output after the answer stay. A public
//! function without a comment models the call of its name.

use crate::{Answer, flag_at};

/// An operation on the flags of up to three stretches, in the order of the library's own list.
#[derive(Clone, Copy, Debug, PartialEq, Eq)]
pub enum WordOp {
    And,
    AndNot,
    Or,
    OrNot,
    Xor,
    Not,
    Select,
}

impl WordOp {
    pub const ALL: [WordOp; 7] = [WordOp::And, WordOp::AndNot, WordOp::Or, WordOp::OrNot, WordOp::Xor, WordOp::Not, WordOp::Select];

    /// Applies the operation to three flags; an operation on fewer ignores the later ones.
    pub fn flag(self, first: bool, second: bool, third: bool) -> bool {
        match self {
            WordOp::And => first && second,
            WordOp::AndNot => first && !second,
            WordOp::Or => first || second,
            WordOp::OrNot => first || !second,
            WordOp::Xor => first != second,
            WordOp::Not => !first,
            WordOp::Select => [third, second][usize::from(first)],
        }
    }
}

/// Lent bytes and the flag from which they are read.
#[derive(Clone, Copy)]
pub struct Stretch<'a> {
    pub bytes: &'a [u8],
    pub start: usize,
}

impl Stretch<'_> {
    /// Returns how many of `length` flags lie in the bytes.
    fn inside(self, length: usize) -> usize {
        length.min((8 * self.bytes.len()).saturating_sub(self.start))
    }

    /// Returns flag `j`, counted from the start; false past the end of the bytes.
    fn flag(self, j: usize) -> bool {
        j < self.inside(j + 1) && flag_at(self.bytes, self.start + j)
    }
}

/// A list of flags that may be longer than memory: `flags`, and after them `more` that all equal `rest`.
struct Row {
    flags: Vec<bool>,
    rest: bool,
    more: usize,
}

impl Row {
    fn combined(op: WordOp, [a, b, c]: [Stretch; 3], length: usize) -> Row {
        let read = a.inside(length).max(b.inside(length)).max(c.inside(length));
        let flags = (0..read).map(|j| op.flag(a.flag(j), b.flag(j), c.flag(j))).collect();
        Row { flags, rest: op.flag(false, false, false), more: length - read }
    }

    fn read(stretch: Stretch, length: usize) -> Row {
        let read = stretch.inside(length);
        Row { flags: (0..read).map(|j| stretch.flag(j)).collect(), rest: false, more: length - read }
    }

    fn constant(flag: bool, length: usize) -> Row {
        Row { flags: Vec::new(), rest: flag, more: length }
    }

    fn ones(&self) -> usize {
        self.flags.iter().filter(|&&flag| flag).count() + if self.rest { self.more } else { 0 }
    }

    /// Writes the flags at the start of the output as whole words, zeros after the last flag.
    fn write(&self, out: &mut [u8]) {
        let length = self.flags.len() as u128 + self.more as u128;
        let whole = 64 * length.div_ceil(64);
        for j in 0..whole.min(8 * out.len() as u128) as usize {
            let flag = if j < self.flags.len() { self.flags[j] } else { self.rest && (j as u128) < length };
            set_flag(out, j, flag);
        }
    }
}

/// Sets flag j of a buffer.
pub(crate) fn set_flag(out: &mut [u8], j: usize, flag: bool) {
    out[j / 8] = out[j / 8] & !(1 << (j % 8)) | u8::from(flag) << (j % 8);
}

pub fn combine(op: WordOp, stretches: [Stretch; 3], length: usize, out: &mut [u8]) -> Answer {
    Row::combined(op, stretches, length).write(out);
    Answer::values([])
}

pub fn copy(stretch: Stretch, length: usize, out: &mut [u8]) -> Answer {
    Row::read(stretch, length).write(out);
    Answer::values([])
}

pub fn fill(flag: bool, length: usize, out: &mut [u8]) -> Answer {
    Row::constant(flag, length).write(out);
    Answer::values([])
}

/// Writes `words` whole words of `flag`, or as many as fit.
pub fn fill_whole(flag: bool, words: usize, out: &mut [u8]) -> Answer {
    fill(flag, 64 * words.min(out.len() / 8), out)
}

/// Copies as `copy` does, and counts the set flags, those that did not fit too.
pub fn copy_count(stretch: Stretch, length: usize, out: &mut [u8]) -> Answer {
    copy(stretch, length, out);
    count_ones(stretch, length)
}

pub fn count_ones(stretch: Stretch, length: usize) -> Answer {
    Answer::values([Row::read(stretch, length).ones()])
}

pub fn count_ones_of(op: WordOp, stretches: [Stretch; 3], length: usize) -> Answer {
    Answer::values([Row::combined(op, stretches, length).ones()])
}

pub fn any_set(op: WordOp, stretches: [Stretch; 3], length: usize) -> Answer {
    Answer::values([usize::from(Row::combined(op, stretches, length).ones() > 0)])
}

/// Returns whether the first `length` flags of two stretches are equal.
pub fn equal(a: Stretch, b: Stretch, length: usize) -> Answer {
    let read = a.inside(length).max(b.inside(length));
    Answer::values([usize::from((0..read).all(|j| a.flag(j) == b.flag(j)))])
}
