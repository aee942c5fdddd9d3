//! The arguments of a request, taken one by one. Each method takes what its name says: a number or a record of several.

use crate::token::Token;
use model::loops::{Stretch, WordOp};
use model::{Builder, Cursor, Lent, Mask, Span};

/// The arguments that are not yet taken, and the serials of the records that are not yet taken.
pub struct Args<'a>(pub &'a [Token], pub &'a [u32]);

impl Args<'_> {
    pub fn token(&mut self) -> Token {
        let (&first, rest) = self.0.split_first().expect("an argument is missing");
        self.0 = rest;
        first
    }

    /// Takes the serial of the next record.
    fn serial(&mut self) -> u32 {
        let (&first, rest) = self.1.split_first().expect("a serial is missing");
        self.1 = rest;
        first
    }

    pub fn word(&mut self) -> u64 {
        match self.token() {
            Token::Number(number) => number,
            other => panic!("a number expected, not {other}"),
        }
    }

    pub fn number(&mut self) -> usize {
        self.word() as usize
    }

    pub fn flag(&mut self) -> bool {
        match self.word() {
            0 => false,
            1 => true,
            other => panic!("a flag expected, not {other}"),
        }
    }

    pub fn mask(&mut self) -> Mask {
        let (start, length) = (self.number(), self.number());
        let zeros = match self.token() {
            Token::Number(zeros) => Some(zeros as usize),
            _ => None,
        };
        Mask { start, length, zeros, serial: self.serial() }
    }

    pub fn optional(&mut self) -> Option<Mask> {
        let (present, mask) = (self.flag(), self.mask());
        present.then_some(mask)
    }

    pub fn lent<'b>(&mut self, bytes: &'b [u8]) -> Lent<'b> {
        Lent { mask: self.mask(), bytes }
    }

    pub fn lent_or_none<'b>(&mut self, bytes: &'b [u8]) -> Option<Lent<'b>> {
        self.optional().map(|mask| Lent { mask, bytes })
    }

    pub fn builder(&mut self) -> Builder {
        Builder { length: self.number(), word: self.word(), ones: self.number(), serial: self.serial() }
    }

    pub fn cursor(&mut self) -> Cursor {
        Cursor { start: self.number(), length: self.number(), place: self.number(), masked: true }
    }

    pub fn true_cursor(&mut self) -> Cursor {
        let cursor = self.cursor();
        Cursor { masked: self.flag(), ..cursor }
    }

    pub fn op(&mut self) -> WordOp {
        WordOp::ALL[self.number()]
    }

    pub fn span<'b>(&mut self, bytes: &'b [u8]) -> Span<'b> {
        Span { bytes, start: self.number(), length: self.number() }
    }

    pub fn stretch<'b>(&mut self, bytes: &'b [u8]) -> Stretch<'b> {
        Stretch { bytes, start: self.number() }
    }
}
