//! The checks of the reference.

use crate::{Answer, Builder, Cursor, LIMIT, Lent, Span, State, frozen_size};

/// The ranks of the numbers: of the checks that fail, the one listed first refuses the call.
const RANKS: [u8; 16] = [16, 10, 1, 11, 2, 13, 3, 14, 15, 4, 5, 12, 6, 7, 8, 9];

/// Returns the place of a number in `RANKS`.
fn rank(number: u8) -> usize {
    RANKS.iter().position(|&other| other == number).expect("a number that no check has")
}

/// The checks made so far, as the number of least rank that failed. The number of least rank refuses the call whichever argument it
/// applies to, so the order in which a call adds its checks here does not matter.
#[derive(Default)]
pub struct Checks {
    failed: Option<u8>,
}

impl Checks {
    /// Adds a check: `holds` says whether it passed.
    pub fn check(mut self, number: u8, holds: bool) -> Self {
        if !holds && self.failed.is_none_or(|first| rank(number) < rank(first)) {
            self.failed = Some(number);
        }
        self
    }

    /// Makes check 1: each number is at most the limit.
    pub fn limited(self, numbers: &[u128]) -> Self {
        self.check(1, numbers.iter().all(|&number| number <= LIMIT as u128))
    }

    /// Makes checks 1 and 2 of a span.
    pub fn span(self, span: Span) -> Self {
        let (start, length) = (span.start as u128, span.length as u128);
        self.limited(&[start, length]).check(2, start + length <= 8 * span.bytes.len() as u128)
    }

    /// Makes checks 1, 2 and 3 of a mask: a known count is the number of zeros, which are counted only if 1 and 2 of the mask pass.
    pub fn mask(self, lent: Lent) -> Self {
        let inside = Checks::default().span(lent.span()).passed();
        let exact = |zeros: usize| !inside || zeros == lent.flags().into_iter().filter(|&flag| !flag).count();
        self.span(lent.span()).check(3, lent.mask.zeros.is_none_or(exact))
    }

    /// Makes checks 1, 2 and 6 of a cursor; without a mask check 2 is not made.
    pub fn cursor(self, cursor: Cursor, bytes: &[u8]) -> Self {
        let span = Span { bytes, start: cursor.start, length: cursor.length };
        let checks = if cursor.masked { self.span(span) } else { self.limited(&[cursor.start as u128, cursor.length as u128]) };
        checks.check(6, cursor.place <= cursor.length)
    }

    /// Makes checks 1 and 4 of a builder in its buffer.
    pub fn builder(self, builder: Builder, buf: &[u8]) -> Self {
        let words = builder.length / 64;
        let beyond = builder.word >> (builder.length % 64) != 0;
        let possible = !beyond && builder.ones as u128 <= 64 * words as u128 && buf.len() as u128 >= 8 * words as u128;
        self.limited(&[builder.length as u128]).check(4, possible)
    }

    /// Makes check 9: the output holds the frozen bytes of `length` flags.
    pub fn holds(self, out: &[u8], length: u128) -> Self {
        self.check(9, out.len() as u128 >= frozen_size(length))
    }

    /// Returns whether no check has failed.
    pub fn passed(&self) -> bool {
        self.failed.is_none()
    }

    /// Returns the answer of the call: what `given` makes, or the refusal with the record `came`, which the call had taken.
    pub fn answer(self, came: State, given: impl FnOnce() -> Answer) -> Answer {
        match self.failed {
            Some(refusal) => Answer { refusal, values: Vec::new(), state: came },
            None => given(),
        }
    }
}
