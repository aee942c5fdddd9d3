//! The iterator over the rows of a grid.

use std::iter::FusedIterator;
use std::ops::Range;

use super::Grid;
use crate::bitmap::Bitmap;
use crate::calls;

impl Grid {
    /// Returns an iterator over the rows from the first, each a mask over the same bytes. The count of a row is not known before it is
    /// counted, except that of a row with no flags.
    ///
    /// ```
    /// use poruwhina::{Bitmap, Grid};
    ///
    /// let grid = Grid::try_new(Bitmap::from([true, false, true, true, false, false]), 2, 3)?;
    /// assert!(grid.row_iter().map(|row| row.set_bits()).eq([2, 1]));
    /// # Ok::<(), poruwhina::Refusal>(())
    /// ```
    pub fn row_iter(&self) -> RowIter<'_> {
        RowIter { grid: self, left: 0..self.rows }
    }
}

/// Iterates over the rows, as [`Grid::row_iter`] does.
///
/// ```
/// use poruwhina::{Bitmap, Grid};
///
/// let mut rows = 0;
/// for row in &Grid::try_new(Bitmap::from([true; 6]), 3, 2)? {
///     assert_eq!(row, Bitmap::from([true, true]));
///     rows += 1;
/// }
/// assert_eq!(rows, 3);
/// # Ok::<(), poruwhina::Refusal>(())
/// ```
impl<'a> IntoIterator for &'a Grid {
    type Item = Bitmap;
    type IntoIter = RowIter<'a>;

    fn into_iter(self) -> RowIter<'a> {
        self.row_iter()
    }
}

/// An iterator over the rows of a grid, made by [`Grid::row_iter`]. Rows that `nth`, `nth_back`, `count` or `last` passes over cost
/// nothing.
///
/// ```
/// use poruwhina::{Bitmap, Grid};
///
/// let grid = Grid::try_new(Bitmap::from([true, false, true, true, false, false]), 3, 2)?;
/// let mut rows = grid.row_iter();
/// assert_eq!((rows.len(), rows.nth(1), rows.next_back()), (3, Some(grid.row(1)?), Some(grid.row(2)?)));
/// assert_eq!(rows.next(), None);
/// assert_eq!((grid.row_iter().count(), grid.row_iter().last(), grid.row_iter().nth_back(2)), (3, Some(grid.row(2)?), Some(grid.row(0)?)));
/// # Ok::<(), poruwhina::Refusal>(())
/// ```
#[derive(Clone, Debug)]
#[must_use = "an iterator does nothing until it is asked"]
pub struct RowIter<'a> {
    grid: &'a Grid,
    left: Range<usize>,
}

impl RowIter<'_> {
    /// Returns a row without the grid's count, so that the flags are not counted for each row.
    fn row(&self, row: usize) -> Bitmap {
        let Grid { mask, rows, columns } = self.grid;
        let answer = calls::grid_row(mask.record(), mask.bytes(), *rows, *columns, row);
        self.grid.row_of(row, answer).expect("a row inside the grid")
    }
}

impl Iterator for RowIter<'_> {
    type Item = Bitmap;

    fn next(&mut self) -> Option<Bitmap> {
        let row = self.left.next()?;
        Some(self.row(row))
    }

    fn nth(&mut self, n: usize) -> Option<Bitmap> {
        let row = self.left.nth(n)?;
        Some(self.row(row))
    }

    fn size_hint(&self) -> (usize, Option<usize>) {
        self.left.size_hint()
    }

    fn count(self) -> usize {
        self.left.len()
    }

    fn last(mut self) -> Option<Bitmap> {
        self.next_back()
    }
}

impl DoubleEndedIterator for RowIter<'_> {
    fn next_back(&mut self) -> Option<Bitmap> {
        let row = self.left.next_back()?;
        Some(self.row(row))
    }

    fn nth_back(&mut self, n: usize) -> Option<Bitmap> {
        let row = self.left.nth_back(n)?;
        Some(self.row(row))
    }
}

impl ExactSizeIterator for RowIter<'_> {}
impl FusedIterator for RowIter<'_> {}
