//! A mask as a grid of rows and columns: flag r * columns + c is row r, column c. Neither number is a length: check 1 is not made
//! of them. Their product is exact: no two numbers wrap to a mask's length.
//!
//! Written by tests/declarations.py from crates/capi.

use super::exports;
use super::records::*;

/// Returns the mask of row `row`, over the same bytes: what [`slice`](super::slice) returns for the `columns` flags that start at
/// flag row * columns. Refusal 12 means that rows * columns is not the length of `mask`, 6 that `row` is not below `rows`. The
/// start of a row is put to check 1 only if there is such a row. Refuses with 1, 2, 3, 12, 6, 7; the mask is unchanged, every
/// field of it.
///
/// ```
/// use poruwhina::calls::{grid_row, try_new};
///
/// let mask = try_new(&[0x2D], 0, 6).mask; // 1,0,1 and 1,0,1
/// let row = grid_row(mask, &[0x2D], 2, 3, 1).mask;
/// assert_eq!((row.start, row.length), (3, 3));
/// assert_eq!(grid_row(mask, &[0x2D], 2, 3, 2).refusal, 6);
/// assert_eq!(grid_row(mask, &[0x2D], 2, 4, 2).refusal, 12);
/// ```
#[inline]
pub fn grid_row(mask: Mask, bytes: &[u8], rows: usize, columns: usize, row: usize) -> MaskAnswer {
    unsafe { exports::pw_grid_row(mask, bytes.as_ptr(), bytes.len(), rows, columns, row) }
}

/// Writes the frozen bytes of column `column`, of `rows` flags, at the start of `out` and returns the mask over them. Its zero
/// count is unknown, or known as 0 if there are no rows; its serial is that of `mask`. Refusal 12 means that rows * columns is
/// not the length of `mask`, 6 that `column` is not below `columns`. Refuses with 1, 2, 3, 12, 6, 9; every other field is then 0.
///
/// ```
/// use poruwhina::calls::{grid_column, try_new};
///
/// let mut out = [0xFF; 9];
/// let column = grid_column(try_new(&[0x2D], 0, 6).mask, &[0x2D], 3, 2, 1, &mut out).mask; // 1,0 and 1,1 and 0,1
/// assert_eq!((column.start, column.length, column.known), (0, 3, 0));
/// assert_eq!((out[0], out[8]), (0x06, 0xFF));
/// ```
#[inline]
pub fn grid_column(mask: Mask, bytes: &[u8], rows: usize, columns: usize, column: usize, out: &mut [u8]) -> MaskAnswer {
    unsafe { exports::pw_grid_column(mask, bytes.as_ptr(), bytes.len(), rows, columns, column, out.as_mut_ptr(), out.len()) }
}

/// Writes the frozen bytes of the grid with rows and columns exchanged at the start of `out`, with flag r * columns + c of `mask`
/// as flag c * rows + r, and returns the mask over them. Its zero count is unknown, or known as 0 if there are no flags; its
/// serial is that of `mask`. Refusal 12 means that rows * columns is not the length of `mask`. Refuses with 1, 2, 3, 12, 9; every
/// other field is then 0.
///
/// ```
/// use poruwhina::calls::{grid_transpose, try_new};
///
/// let (mut out, mut back) = ([0; 8], [0; 8]);
/// let transposed = grid_transpose(try_new(&[0x2D], 0, 6).mask, &[0x2D], 3, 2, &mut out).mask; // 1,1,0 and 0,1,1
/// assert_eq!((transposed.length, out[0]), (6, 0x33));
/// grid_transpose(transposed, &out, 2, 3, &mut back);
/// assert_eq!(back[0], 0x2D);
/// ```
#[inline]
pub fn grid_transpose(mask: Mask, bytes: &[u8], rows: usize, columns: usize, out: &mut [u8]) -> MaskAnswer {
    unsafe { exports::pw_grid_transpose(mask, bytes.as_ptr(), bytes.len(), rows, columns, out.as_mut_ptr(), out.len()) }
}

/// Writes the number of zeros of each row at the start of `counts` and returns how many counts are written, `rows`; the rest of
/// `counts` is unchanged. Refusal 12 means that rows * columns is not the length of `mask`, 9 that `counts` has fewer than `rows`
/// places. Refuses with 1, 2, 3, 12, 9; every other field is then 0.
///
/// ```
/// use poruwhina::calls::{grid_row_zeros, try_new};
///
/// let mut counts = [9; 4];
/// let answer = grid_row_zeros(try_new(&[0x2D], 0, 6).mask, &[0x2D], 3, 2, &mut counts);
/// assert_eq!((answer.value, counts), (3, [1, 0, 1, 9]));
/// ```
#[inline]
pub fn grid_row_zeros(mask: Mask, bytes: &[u8], rows: usize, columns: usize, counts: &mut [u32]) -> NumberAnswer {
    unsafe { exports::pw_grid_row_zeros(mask, bytes.as_ptr(), bytes.len(), rows, columns, counts.as_mut_ptr(), counts.len()) }
}

/// Writes the number of zeros of each column at the start of `counts` and returns how many counts are written, `columns`; the
/// rest of `counts` is unchanged. Refusal 12 means that rows * columns is not the length of `mask`, 9 that `counts` has fewer
/// than `columns` places. Refuses with 1, 2, 3, 12, 9; every other field is then 0.
///
/// ```
/// use poruwhina::calls::{grid_column_zeros, try_new};
///
/// let mut counts = [9; 4];
/// let answer = grid_column_zeros(try_new(&[0x2D], 0, 6).mask, &[0x2D], 3, 2, &mut counts);
/// assert_eq!((answer.value, counts), (2, [1, 1, 9, 9]));
/// assert_eq!(grid_column_zeros(try_new(&[0x2D], 0, 6).mask, &[0x2D], 3, 2, &mut []).refusal, 9);
/// ```
#[inline]
pub fn grid_column_zeros(mask: Mask, bytes: &[u8], rows: usize, columns: usize, counts: &mut [u32]) -> NumberAnswer {
    unsafe { exports::pw_grid_column_zeros(mask, bytes.as_ptr(), bytes.len(), rows, columns, counts.as_mut_ptr(), counts.len()) }
}
