//! Short requests: few flags, small numbers, so that every combination can be made.

use crate::choices::Choices;
use crate::request::{Args, Shape, Target};
use crate::style::Style;

/// The style of short requests of a shape, each part by a choice.
pub struct Short<'a, C> {
    choices: &'a mut C,
    shape: Shape,
    /// Whether the bits around a span are set.
    around: bool,
}

impl<'a, C: Choices> Short<'a, C> {
    /// Returns the style for a shape. If that has pieces, the first choice is whether the bits around a span are set.
    pub fn new(shape: Shape, choices: &'a mut C) -> Self {
        let around = shape.pieces > 0 && choices.flip();
        Self { choices, shape, around }
    }

    /// Returns whether the request lends one piece to read and no bytes to write, except for entries.
    fn alone(&self) -> bool {
        self.shape.pieces == 1 && matches!(self.shape.target, Target::None | Target::Entries)
    }

    /// Returns the most flags of a piece: few enough for all combinations with the other choices.
    fn most(&self) -> usize {
        match (self.shape.pieces, self.shape.target, self.shape.args) {
            (3, ..) | (2, _, Args::Inside) | (1, Target::Builder, Args::Indices | Args::Inner) => 3,
            (2, ..) => 4,
            (1, Target::Builder, _) | (1, _, Args::Inner) => 5,
            (1, _, Args::Search) => 7,
            (1, _, Args::Address | Args::SameLength) | (1, Target::Entries, _) => 8,
            (1, _, Args::None) => 10,
            (1, ..) => 9,
            _ => 130,
        }
    }
}

impl<C: Choices> Choices for Short<'_, C> {
    fn below(&mut self, n: usize) -> usize {
        self.choices.below(n)
    }
}

impl<C: Choices> Style for Short<'_, C> {
    fn length(&mut self) -> usize {
        let most = self.most();
        self.below(most + 1)
    }

    fn beside(&mut self, length: usize) -> usize {
        if self.shape.target == Target::None { self.one_of(&[length, length + 1]) } else { length }
    }

    fn start(&mut self) -> usize {
        if self.alone() { self.below(8) } else { self.one_of(&[0, 3, 7]) }
    }

    fn address(&mut self) -> usize {
        0
    }

    fn bytes(&mut self, start: usize, length: usize) -> Vec<u8> {
        let flags = self.below(1 << length);
        let whole = (start + length).div_ceil(8);
        let many = if self.alone() { (whole + 1).saturating_sub(self.below(3)) } else { whole };
        let flag = |j: usize| if (start..start + length).contains(&j) { flags >> (j - start) & 1 == 1 } else { self.around };
        (0..many).map(|byte| (0..8).map(|bit| u8::from(flag(8 * byte + bit)) << bit).sum()).collect()
    }

    fn fill(&mut self, many: usize) -> Vec<u8> {
        (0..many).map(|i| (i as u8).wrapping_mul(0x6D) ^ 0xA5).collect()
    }

    fn zeros(&mut self, zeros: usize, length: usize) -> Option<usize> {
        match self.shape.pieces {
            1 => self.below(length + 3).checked_sub(1),
            2 => self.one_of(&[None, Some(zeros), Some(0), Some(length)]),
            _ => self.one_of(&[None, Some(zeros)]),
        }
    }

    fn position(&mut self, length: usize) -> usize {
        self.below(length + 2)
    }

    fn inside(&mut self, length: usize) -> usize {
        self.position(length)
    }

    fn builder_length(&mut self) -> usize {
        self.one_of(&[0, 1, 5, 61, 63, 64, 65, 127])
    }

    fn room(&mut self, needed: usize) -> usize {
        (needed + 3).saturating_sub(self.one_of(&[0, 3, 4]))
    }

    fn entries(&mut self, many: usize) -> usize {
        self.below(many + 3)
    }

    fn word(&mut self) -> u64 {
        match self.shape.args {
            Args::Nth => (self.below(1 << 6) as u64) << self.one_of(&[0, 29, 58]) | self.one_of(&[0, 1 << 63]),
            _ => self.one_of(&[0, 1, u64::MAX, 1 << 63, 0xA5C3_96E1_5A3C_691E]),
        }
    }

    fn many(&mut self) -> usize {
        self.below(3)
    }
}
