//! The calls: for each its name, what it takes, and how the library, the model and the original are asked. Function `calls` of a module
//! returns those that its first comment names.

mod builder;
mod cursors;
mod masks;
mod spans;

use crate::request::{Request, Shape};
use crate::theirs::Theirs;
use model::Answer;

/// A function that asks a side; what it writes goes to the output.
pub type Ask = fn(&Request, &mut [u8]) -> Answer;

/// A call that is compared.
pub struct Call {
    pub name: &'static str,
    pub shape: Shape,
    pub ours: Ask,
    pub model: Ask,
    pub theirs: Theirs,
}

/// Returns the calls that are compared: those of the reference, `may_reassign` and `true_idx_next_chunk`.
pub fn calls() -> Vec<Call> {
    [spans::calls(), builder::calls(), masks::calls(), cursors::calls()].into_iter().flatten().collect()
}
