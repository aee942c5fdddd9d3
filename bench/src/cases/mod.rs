//! The cases, by kind of call. Function `run` of a module runs them.

pub mod builders;
pub mod combinations;
pub mod counts;
pub mod cursors;
pub mod grids;
pub mod minutes;
pub mod run_ends;
pub mod searches;

use crate::inputs::Input;
use crate::plain::Span;

pub const SIZES: [usize; 4] = [40, 1_000, 65_536, 4_194_304];
pub const STARTS: [usize; 2] = [0, 3];

/// Returns every start bit with every size.
pub fn spans() -> impl Iterator<Item = (usize, usize)> {
    STARTS.into_iter().flat_map(|start| SIZES.into_iter().map(move |length| (start, length)))
}

/// Returns the span of an input for the plain loops.
pub fn span(input: &Input) -> Span<'_> {
    Span::new(input.padded(), input.start, input.length)
}
