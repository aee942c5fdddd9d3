//! Grids, compared with plain lists of rows.

use poruwhina::{Bitmap, Grid, Refusal};

use crate::lists::patterns;
use crate::{flags_of, mask_at};

/// More rows or columns than any mask has flags.
const MANY: usize = 1 << 60;

/// Returns the flags of each row.
fn rows_of(flags: &[bool], rows: usize, columns: usize) -> Vec<Vec<bool>> {
    (0..rows).map(|row| flags[row * columns..(row + 1) * columns].to_vec()).collect()
}

fn column_of(rows: &[Vec<bool>], column: usize) -> Vec<bool> {
    rows.iter().map(|row| row[column]).collect()
}

fn zeros(flags: &[bool]) -> u32 {
    flags.iter().filter(|&&flag| !flag).count() as u32
}

fn picture(rows: &[Vec<bool>]) -> String {
    let lines: Vec<String> = rows.iter().map(|row| row.iter().map(|&flag| if flag { '#' } else { '.' }).collect()).collect();
    lines.join("\n")
}

/// Compares a grid with its flags.
fn compare(grid: &Grid, flags: &[bool]) {
    let (rows, columns) = (grid.rows(), grid.columns());
    let plain = rows_of(flags, rows, columns);
    for (row, wanted) in plain.iter().enumerate() {
        assert_eq!(flags_of(&grid.row(row).unwrap()), *wanted, "row {row} of {rows} x {columns}");
    }
    for column in 0..columns {
        assert_eq!(flags_of(&grid.column(column).unwrap()), column_of(&plain, column), "column {column} of {rows} x {columns}");
    }
    assert!(grid.row_iter().map(|row| flags_of(&row)).eq(plain.iter().cloned()));
    assert!(grid.row_iter().rev().map(|row| flags_of(&row)).eq(plain.iter().rev().cloned()));
    let transposed = grid.transpose();
    assert_eq!((transposed.rows(), transposed.columns()), (columns, rows));
    assert_eq!(flags_of(transposed.mask()), (0..columns).flat_map(|column| column_of(&plain, column)).collect::<Vec<bool>>());
    assert_eq!(transposed.transpose(), *grid);
    let by_row: Vec<u32> = plain.iter().map(|row| zeros(row)).collect();
    let by_column: Vec<u32> = (0..columns).map(|column| zeros(&column_of(&plain, column))).collect();
    assert_eq!(grid.row_zeros().unwrap(), by_row);
    assert_eq!(grid.column_zeros().unwrap(), by_column);
    assert_eq!(grid.to_string(), picture(&plain));
    assert_eq!(grid.row(rows), Err(Refusal::OutsideMask));
    assert_eq!(grid.column(columns), Err(Refusal::OutsideMask));
}

#[test]
fn every_shape() {
    for length in [1, 2, 6, 12, 63, 64, 65, 128, 130] {
        for flags in patterns(length) {
            for start in [0, 3] {
                let mask = mask_at(&flags, start).with_serial(9);
                for rows in (1..=length).filter(|rows| length % rows == 0) {
                    let grid = Grid::try_new(mask.clone(), rows, length / rows).unwrap();
                    compare(&grid, &flags);
                    let serials = [grid.row(0).unwrap(), grid.column(0).unwrap(), grid.transpose().into_mask()].map(|mask| mask.serial());
                    assert_eq!(serials, [9; 3]);
                }
                assert_eq!(Grid::try_new(mask.clone(), length, 2), Err(Refusal::NotAGrid));
                assert_eq!(Grid::try_new(mask, 0, length), Err(Refusal::NotAGrid));
            }
        }
    }
}

#[test]
fn counts_of_rows() {
    let mask = mask_at(&[true, false, true, true, true, true], 3);
    let grid = Grid::try_new(mask, 3, 2).unwrap();
    assert_eq!(grid.mask().unset_bits(), 1);
    assert_eq!(grid.row(1).unwrap().lazy_unset_bits(), Some(0), "few flags are cut off, so the count is kept");
    assert_eq!(grid.row_iter().nth(1).unwrap().lazy_unset_bits(), None);
    assert_eq!(Grid::try_new(Bitmap::new_zeroed(6).unwrap(), 2, 3).unwrap().row(1).unwrap().lazy_unset_bits(), Some(3));
}

#[test]
fn no_flags() {
    let none = |rows, columns| Grid::try_new(Bitmap::new(), rows, columns).unwrap();
    for many in [0, 1, 3, MANY, usize::MAX] {
        let (tall, wide) = (none(many, 0), none(0, many));
        assert_eq!((tall.transpose(), wide.transpose()), (wide.clone(), tall.clone()));
        assert_eq!((tall.row_iter().len(), wide.row_iter().len()), (many, 0));
        assert_eq!((tall.column(0), wide.row(0)), (Err(Refusal::OutsideMask), Err(Refusal::OutsideMask)));
        assert_eq!((tall.row(many), wide.column(many)), (Err(Refusal::OutsideMask), Err(Refusal::OutsideMask)));
        assert_eq!((tall.to_string(), wide.to_string()), (format!("{many} x 0"), format!("0 x {many}")));
        assert_eq!((tall.column_zeros().unwrap(), wide.row_zeros().unwrap()), (Vec::new(), Vec::new()));
        if let Some(last) = many.checked_sub(1) {
            assert_eq!((tall.row(last), wide.column(last)), (Ok(Bitmap::new()), Ok(Bitmap::new())));
            assert_eq!(tall.row_iter().nth(last), Some(Bitmap::new()));
            assert_eq!((tall.row_iter().nth_back(last), tall.row_iter().last()), (Some(Bitmap::new()), Some(Bitmap::new())));
            assert_eq!((tall.row_iter().count(), tall.row_iter().nth_back(many)), (many, None));
        }
    }
    assert_eq!((none(3, 0).row_zeros().unwrap(), none(0, 3).column_zeros().unwrap()), (vec![0; 3], vec![0; 3]));
}

#[test]
fn places_for_2_to_the_60_counts() {
    let (tall, wide) = (Grid::try_new(Bitmap::new(), MANY, 0).unwrap(), Grid::try_new(Bitmap::new(), 0, MANY).unwrap());
    assert!(tall.row_zeros().is_err());
    assert!(wide.column_zeros().is_err());
    let mut counts = [7; 3];
    assert_eq!(tall.row_zeros_into(&mut counts), Err(Refusal::OutputTooSmall));
    assert_eq!(wide.column_zeros_into(&mut counts), Err(Refusal::OutputTooSmall));
    assert_eq!(counts, [7; 3]);
    assert_eq!(tall.column_zeros_into(&mut counts), Ok(&mut [][..]));
}

#[test]
fn products_that_wrap() {
    let six = mask_at(&[true; 6], 3);
    for (rows, columns) in [(MANY << 3, 2), ((1 << 63) + 3, 2), (2, (1 << 63) + 3), (usize::MAX, usize::MAX - 5)] {
        assert_eq!(Grid::try_new(six.clone(), rows, columns), Err(Refusal::NotAGrid), "{rows} x {columns}");
    }
    assert_eq!(Grid::try_new(Bitmap::new(), 1 << 32, 1 << 32), Err(Refusal::NotAGrid));
}

#[test]
fn counts_into_a_longer_slice() {
    let grid = Grid::try_new(mask_at(&[true, false, false, false, true, false], 3), 2, 3).unwrap();
    let mut counts = [7; 4];
    assert_eq!(grid.row_zeros_into(&mut counts), Ok(&mut [2, 2][..]));
    assert_eq!(counts, [2, 2, 7, 7]);
    assert_eq!(grid.column_zeros_into(&mut counts[..3]), Ok(&mut [1, 1, 2][..]));
    assert_eq!(counts, [1, 1, 2, 7]);
    assert_eq!(grid.column_zeros_into(&mut counts[..2]), Err(Refusal::OutputTooSmall));
    assert_eq!(counts, [1, 1, 2, 7]);
}

/// Rows whose start, by the bit in the first byte, is above the flag limit.
#[test]
fn the_last_rows_of_the_longest_mask() {
    let bytes = vec![0xA5; Bitmap::LIMIT / 8 + 1];
    let mask = Bitmap::try_from_span(bytes, 7, Bitmap::LIMIT).unwrap();
    let last: Vec<bool> = mask.sliced(Bitmap::LIMIT - 9, 9).unwrap().iter().collect();
    let grid = Grid::try_new(mask, Bitmap::LIMIT, 1).unwrap();
    for (back, wanted) in (1..=9).zip(last.iter().rev()) {
        assert_eq!(flags_of(&grid.row(Bitmap::LIMIT - back).unwrap()), [*wanted]);
    }
    assert!(grid.row_iter().rev().take(9).map(|row| row.get(0).unwrap()).eq(last.iter().rev().copied()));
    assert_eq!(grid.row(Bitmap::LIMIT), Err(Refusal::OutsideMask));
    assert_eq!(grid.transpose().row(0).unwrap(), *grid.mask());
}
