//! A mask's flags as a grid: flag r × columns + c is row r, column c. A public function without a comment models the call of its name.

use crate::{Answer, Checks, LIMIT, Lent, State, mask, written};

/// Makes the checks of a grid: 1, 2 and 3 of the mask, and 12, rows × columns is its length.
fn grid(lent: Lent, rows: usize, columns: usize) -> Checks {
    Checks::default().mask(lent).check(12, rows as u128 * columns as u128 == lent.mask.length as u128)
}

/// Returns the flags of one column of a grid whose checks have passed.
fn column(flags: &[bool], rows: usize, columns: usize, c: usize) -> Vec<bool> {
    (0..rows).map(|r| flags[r * columns + c]).collect()
}

/// Returns the mask of one row: that of a slice of `columns` flags. Check 1 of its start is made only for a row inside a grid of the mask's
/// length.
pub fn grid_row(lent: Lent, rows: usize, columns: usize, row: usize) -> Answer {
    let placed = row < rows && rows as u128 * columns as u128 == lent.mask.length as u128;
    let start = lent.mask.start as u128 + row as u128 * columns as u128;
    let checks = grid(lent, rows, columns).check(6, row < rows).check(1, !placed || start <= LIMIT as u128);
    checks.answer(State::Mask(lent.mask), || mask::slice(lent, row * columns, columns))
}

/// Writes the flags of one column as frozen bytes, and returns their mask.
pub fn grid_column(lent: Lent, rows: usize, columns: usize, c: usize, out: &mut [u8]) -> Answer {
    let checks = grid(lent, rows, columns).check(6, c < columns).holds(out, rows as u128);
    checks.answer(State::None, || written(&column(&lent.flags(), rows, columns, c), lent.mask.serial, out))
}

/// Writes the grid with rows and columns exchanged as frozen bytes, and returns its mask.
pub fn grid_transpose(lent: Lent, rows: usize, columns: usize, out: &mut [u8]) -> Answer {
    let checks = grid(lent, rows, columns).holds(out, rows as u128 * columns as u128);
    checks.answer(State::None, || {
        let flags = lent.flags();
        // A grid with no rows has no flags, however many columns it has.
        let transposed: Vec<bool> = (0..if rows == 0 { 0 } else { columns }).flat_map(|c| column(&flags, rows, columns, c)).collect();
        written(&transposed, lent.mask.serial, out)
    })
}

/// Writes the number of zeros of each row, and returns how many rows there are.
pub fn grid_row_zeros(lent: Lent, rows: usize, columns: usize, counts: &mut [u32]) -> Answer {
    let checks = grid(lent, rows, columns).check(9, counts.len() >= rows);
    checks.answer(State::None, || {
        let flags = lent.flags();
        for (r, count) in counts[..rows].iter_mut().enumerate() {
            *count = (0..columns).filter(|c| !flags[r * columns + c]).count() as u32;
        }
        Answer::values([rows])
    })
}

/// Writes the number of zeros of each column, and returns how many columns there are.
pub fn grid_column_zeros(lent: Lent, rows: usize, columns: usize, counts: &mut [u32]) -> Answer {
    let checks = grid(lent, rows, columns).check(9, counts.len() >= columns);
    checks.answer(State::None, || {
        let flags = lent.flags();
        for (c, count) in counts[..columns].iter_mut().enumerate() {
            *count = (0..rows).filter(|r| !flags[r * columns + c]).count() as u32;
        }
        Answer::values([columns])
    })
}
