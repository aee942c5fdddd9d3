//! How the numbers and bytes of a request are drawn: `short` makes few choices, so that all can be tried, `wide` draws by chance.

use crate::choices::Choices;

/// A way to draw the parts of a request.
pub trait Style: Choices {
    fn length(&mut self) -> usize;

    /// Returns the length of a further mask of a call whose first mask has `length` flags: mostly equal.
    fn beside(&mut self, length: usize) -> usize;

    fn start(&mut self) -> usize;

    /// Returns the remainder by 8 of the address at which bytes are lent.
    fn address(&mut self) -> usize;

    /// Returns bytes for a span, with the bits around it.
    fn bytes(&mut self, start: usize, length: usize) -> Vec<u8>;

    /// Returns `many` bytes of any content.
    fn fill(&mut self, many: usize) -> Vec<u8>;

    /// Returns a zero count, known or not, true or not, for a mask of `length` flags with `zeros` zeros.
    fn zeros(&mut self, zeros: usize, length: usize) -> Option<usize>;

    /// Returns a position in, at or past a length.
    fn position(&mut self, length: usize) -> usize;

    /// Returns a position that a call checks against the length: mostly at most that.
    fn inside(&mut self, length: usize) -> usize;

    /// Returns how many flags of a mask a slice keeps, if these are to be near the border of counting again.
    fn kept(&mut self, _length: usize) -> Option<usize> {
        None
    }

    fn builder_length(&mut self) -> usize;

    /// Returns how many bytes to lend if `needed` are needed.
    fn room(&mut self, needed: usize) -> usize;

    /// Returns how many entries an output has if there are `many` to write.
    fn entries(&mut self, many: usize) -> usize;

    fn word(&mut self) -> u64;

    /// Returns how many indices a gather has.
    fn many(&mut self) -> usize;
}
