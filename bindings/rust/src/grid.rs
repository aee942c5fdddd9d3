//! A mask as a grid of rows and columns, as pits by trucks.

mod rows;

use std::collections::TryReserveError;
use std::fmt::{self, Write};

pub use rows::RowIter;

use crate::bitmap::Bitmap;
use crate::calls;
use crate::refusal::{Refusal, check};

/// A call that counts the zeros of every row or of every column.
type CountCall = fn(calls::Mask, &[u8], usize, usize, &mut [u32]) -> calls::NumberAnswer;

/// A mask as a grid: flag r × columns + c is row r, column c.
///
/// Rows and columns are any two numbers whose product is the mask's length: a grid without flags may have any number of rows and no
/// columns, or no rows and any number of columns.
///
/// Two grids are equal if their rows, columns and flags are.
///
/// ```
/// use poruwhina::{Bitmap, Grid};
///
/// // Two pits by three trucks.
/// let grid = Grid::try_new(Bitmap::from([true, false, true, true, false, false]), 2, 3)?;
/// assert_eq!(grid.row(1)?, Bitmap::from([true, false, false]));
/// assert_eq!(grid.column(2)?, Bitmap::from([true, false]));
/// assert_eq!(grid.to_string(), "#.#\n#..");
/// assert_eq!(grid.transpose().to_string(), "##\n..\n#.");
/// # Ok::<(), poruwhina::Refusal>(())
/// ```
#[derive(Clone, Debug, PartialEq, Eq, Hash)]
pub struct Grid {
    mask: Bitmap,
    rows: usize,
    columns: usize,
}

impl Grid {
    /// Returns the mask as a grid. Refused with 12 if `rows` × `columns` is not the mask's length.
    ///
    /// ```
    /// use poruwhina::{Bitmap, Grid, Refusal};
    ///
    /// let mask = Bitmap::from([true, false, true, true, false, true]);
    /// assert!(Grid::try_new(mask.clone(), 3, 2).is_ok());
    /// assert_eq!(Grid::try_new(mask, 3, 3), Err(Refusal::NotAGrid));
    /// ```
    pub fn try_new(mask: Bitmap, rows: usize, columns: usize) -> Result<Grid, Refusal> {
        // A call with no place for a count: it refuses with 12, or else with 9 if there are rows.
        let answer = calls::grid_row_zeros(mask.record(), mask.bytes(), rows, columns, &mut []);
        match check(answer.refusal) {
            Ok(()) | Err(Refusal::OutputTooSmall) => Ok(Grid { mask, rows, columns }),
            Err(refusal) => Err(refusal),
        }
    }

    /// Returns the number of rows.
    ///
    /// ```
    /// # use poruwhina::{Bitmap, Grid};
    /// assert_eq!(Grid::try_new(Bitmap::from([true; 6]), 2, 3)?.rows(), 2);
    /// # Ok::<(), poruwhina::Refusal>(())
    /// ```
    #[must_use]
    pub fn rows(&self) -> usize {
        self.rows
    }

    /// Returns the number of columns.
    ///
    /// ```
    /// # use poruwhina::{Bitmap, Grid};
    /// assert_eq!(Grid::try_new(Bitmap::from([true; 6]), 2, 3)?.columns(), 3);
    /// # Ok::<(), poruwhina::Refusal>(())
    /// ```
    #[must_use]
    pub fn columns(&self) -> usize {
        self.columns
    }

    /// Returns the mask, row after row.
    ///
    /// ```
    /// # use poruwhina::{Bitmap, Grid};
    /// assert_eq!(Grid::try_new(Bitmap::from([true; 6]), 2, 3)?.mask().len(), 6);
    /// # Ok::<(), poruwhina::Refusal>(())
    /// ```
    #[must_use]
    pub fn mask(&self) -> &Bitmap {
        &self.mask
    }

    /// Returns the mask, row after row, and gives up the grid.
    ///
    /// ```
    /// # use poruwhina::{Bitmap, Grid};
    /// assert_eq!(Grid::try_new(Bitmap::from([true; 6]), 2, 3)?.into_mask(), Bitmap::from([true; 6]));
    /// # Ok::<(), poruwhina::Refusal>(())
    /// ```
    #[must_use]
    pub fn into_mask(self) -> Bitmap {
        self.mask
    }

    /// Returns one row as a mask over the same bytes, as [`Bitmap::sliced`] does. Refused with 6 if `row` is not below the number of rows.
    ///
    /// As with a slice, a known zero count of the grid is counted again by the library; [`row_iter`](Grid::row_iter) leaves it out.
    ///
    /// ```
    /// use poruwhina::{Bitmap, Grid, Refusal};
    ///
    /// let grid = Grid::try_new(Bitmap::from([true, false, true, true, false, false]), 2, 3)?;
    /// assert_eq!(grid.row(0)?, Bitmap::from([true, false, true]));
    /// assert_eq!(grid.row(2), Err(Refusal::OutsideMask));
    /// # Ok::<(), Refusal>(())
    /// ```
    pub fn row(&self, row: usize) -> Result<Bitmap, Refusal> {
        let answer = calls::grid_row(self.mask.counted_record(), self.mask.bytes(), self.rows, self.columns, row);
        self.row_of(row, answer)
    }

    /// Returns one column as a mask with bytes of its own. Refused with 6 if `column` is not below the number of columns.
    ///
    /// ```
    /// use poruwhina::{Bitmap, Grid, Refusal};
    ///
    /// let grid = Grid::try_new(Bitmap::from([true, false, true, true, false, false]), 2, 3)?;
    /// assert_eq!(grid.column(0)?, Bitmap::from([true, true]));
    /// assert_eq!(grid.column(3), Err(Refusal::OutsideMask));
    /// # Ok::<(), Refusal>(())
    /// ```
    pub fn column(&self, column: usize) -> Result<Bitmap, Refusal> {
        // A grid that has a column has at most as many rows as flags.
        Bitmap::written(self.rows.min(self.mask.len()), |out| {
            calls::grid_column(self.mask.record(), self.mask.bytes(), self.rows, self.columns, column, out)
        })
    }

    /// Returns the grid with rows and columns exchanged: its row c is this grid's column c. Its mask has bytes of its own. No check can
    /// fail, so there is no refusal.
    ///
    /// ```
    /// use poruwhina::{Bitmap, Grid};
    ///
    /// let grid = Grid::try_new(Bitmap::from([true, false, true, true, false, false]), 2, 3)?;
    /// let transposed = grid.transpose();
    /// assert_eq!((transposed.rows(), transposed.columns(), transposed.row(2)?), (3, 2, grid.column(2)?));
    /// assert_eq!(transposed.transpose(), grid);
    /// # Ok::<(), poruwhina::Refusal>(())
    /// ```
    #[must_use]
    pub fn transpose(&self) -> Grid {
        let mask = Bitmap::written(self.mask.len(), |out| {
            calls::grid_transpose(self.mask.record(), self.mask.bytes(), self.rows, self.columns, out)
        });
        Grid { mask: mask.expect("a grid has its own length"), rows: self.columns, columns: self.rows }
    }

    /// Writes the number of zeros of each row to the start of `counts`, and returns these counts; the rest of `counts` is unchanged.
    /// Refused with 9 if it is shorter than the number of rows.
    ///
    /// ```
    /// use poruwhina::{Bitmap, Grid, Refusal};
    ///
    /// let grid = Grid::try_new(Bitmap::from([true, false, true, true, false, false]), 2, 3)?;
    /// assert_eq!(grid.row_zeros_into(&mut [9; 3])?, [1, 2]);
    /// assert_eq!(grid.row_zeros_into(&mut [9; 1]), Err(Refusal::OutputTooSmall));
    /// # Ok::<(), Refusal>(())
    /// ```
    pub fn row_zeros_into<'a>(&self, counts: &'a mut [u32]) -> Result<&'a mut [u32], Refusal> {
        self.counted(calls::grid_row_zeros, counts)
    }

    /// Writes the number of zeros of each column to the start of `counts`, and returns these counts; the rest of `counts` is unchanged.
    /// Refused with 9 if it is shorter than the number of columns.
    ///
    /// ```
    /// use poruwhina::{Bitmap, Grid, Refusal};
    ///
    /// let grid = Grid::try_new(Bitmap::from([true, false, true, true, false, false]), 2, 3)?;
    /// assert_eq!(grid.column_zeros_into(&mut [9; 4])?, [0, 2, 1]);
    /// assert_eq!(grid.column_zeros_into(&mut [9; 2]), Err(Refusal::OutputTooSmall));
    /// # Ok::<(), Refusal>(())
    /// ```
    pub fn column_zeros_into<'a>(&self, counts: &'a mut [u32]) -> Result<&'a mut [u32], Refusal> {
        self.counted(calls::grid_column_zeros, counts)
    }

    /// Returns the number of zeros of each row. The error is that there is no memory for that many counts: a grid with no columns may have
    /// any number of rows.
    ///
    /// ```
    /// use poruwhina::{Bitmap, Grid};
    ///
    /// let grid = Grid::try_new(Bitmap::from([true, false, true, true, false, false]), 2, 3)?;
    /// assert_eq!(grid.row_zeros().unwrap(), [1, 2]);
    /// assert!(Grid::try_new(Bitmap::new(), 1 << 60, 0)?.row_zeros().is_err());
    /// # Ok::<(), poruwhina::Refusal>(())
    /// ```
    pub fn row_zeros(&self) -> Result<Vec<u32>, TryReserveError> {
        self.counts(calls::grid_row_zeros, self.rows)
    }

    /// Returns the number of zeros of each column. The error is that there is no memory for that many counts: a grid with no rows may have
    /// any number of columns.
    ///
    /// ```
    /// use poruwhina::{Bitmap, Grid};
    ///
    /// let grid = Grid::try_new(Bitmap::from([true, false, true, true, false, false]), 2, 3)?;
    /// assert_eq!(grid.column_zeros().unwrap(), [0, 2, 1]);
    /// # Ok::<(), poruwhina::Refusal>(())
    /// ```
    pub fn column_zeros(&self) -> Result<Vec<u32>, TryReserveError> {
        self.counts(calls::grid_column_zeros, self.columns)
    }

    /// Returns the row of an answer. The library's start is at most the limit: a row that would start above it, by the bit in the first
    /// byte, is a slice, which is then made in two steps.
    fn row_of(&self, row: usize, answer: calls::MaskAnswer) -> Result<Bitmap, Refusal> {
        match check(answer.refusal) {
            Ok(()) => Ok(self.mask.over_its_bytes(answer.mask)),
            Err(Refusal::AboveLimit) => self.mask.sliced(row * self.columns, self.columns),
            Err(refusal) => Err(refusal),
        }
    }

    fn counted<'a>(&self, call: CountCall, counts: &'a mut [u32]) -> Result<&'a mut [u32], Refusal> {
        let answer = call(self.mask.record(), self.mask.bytes(), self.rows, self.columns, counts);
        check(answer.refusal)?;
        Ok(&mut counts[..answer.value])
    }

    fn counts(&self, call: CountCall, many: usize) -> Result<Vec<u32>, TryReserveError> {
        let mut counts = Vec::new();
        counts.try_reserve_exact(many)?;
        counts.resize(many, 0);
        self.counted(call, &mut counts).expect("there is a place for each count");
        Ok(counts)
    }
}

/// Shows one line for each row, `#` for a set flag and `.` for another. A grid with no rows or no columns is shown as its two numbers.
///
/// ```
/// use poruwhina::{Bitmap, Grid};
///
/// assert_eq!(Grid::try_new(Bitmap::from([true, false, true, true, false, false]), 2, 3)?.to_string(), "#.#\n#..");
/// assert_eq!(Grid::try_new(Bitmap::new(), 0, 40)?.to_string(), "0 x 40");
/// # Ok::<(), poruwhina::Refusal>(())
/// ```
impl fmt::Display for Grid {
    fn fmt(&self, f: &mut fmt::Formatter<'_>) -> fmt::Result {
        if self.mask.is_empty() {
            return write!(f, "{} x {}", self.rows, self.columns);
        }
        for (place, row) in self.row_iter().enumerate() {
            if place > 0 {
                f.write_char('\n')?;
            }
            for flag in &row {
                f.write_char(if flag { '#' } else { '.' })?;
            }
        }
        Ok(())
    }
}
