//! The calls on a grid, compared with plain versions that make the same checks. The kind of a line is the grid's rows and columns.

use poruwhina::calls;

use crate::cases::STARTS;
use crate::driver::{Driver, Label, Sides};
use crate::inputs::{Input, Kind, words_of};
use crate::plain_grids::{self, Grid};
use crate::timing::{number, side};

/// A site of twelve pits and forty trucks, squares, long and narrow grids of about as many flags as the limit, one row and one column.
pub const SHAPES: [(usize, usize); 8] =
    [(12, 40), (2_048, 2_048), (64, 65_536), (65_536, 64), (2_047, 2_049), (12, 349_525), (1, 4_194_304), (4_194_304, 1)];

/// A mask of rows times columns flags, with places for the flags or the counts that a call writes.
struct Case<'a> {
    input: &'a Input,
    rows: usize,
    columns: usize,
    out: Vec<u8>,
    counts: Vec<u32>,
}

impl<'a> Case<'a> {
    fn new(input: &'a Input, (rows, columns): (usize, usize)) -> Self {
        let out = vec![0xA5; input.length.div_ceil(64) * 8];
        Case { input, rows, columns, out, counts: vec![7; rows.max(columns)] }
    }

    fn grid(&self) -> Grid<'a> {
        let Input { start, length, .. } = *self.input;
        Grid { bytes: self.input.bytes(), start, length, rows: self.rows, columns: self.columns }
    }

    fn flags(&mut self, n: usize) -> Vec<u64> {
        words_of(&self.out, 0, n)
    }

    fn numbers(&mut self, n: usize) -> Vec<u64> {
        self.counts[..n].iter().map(|count| u64::from(*count)).collect()
    }
}

pub fn run(driver: &Driver) {
    for shape in SHAPES {
        for start in STARTS {
            let wanted = ["grid_row", "grid_column", "grid_transpose", "grid_row_zeros", "grid_column_zeros"];
            if wanted.iter().any(|call| driver.wants(call)) {
                shaped(driver, &Input::new(Kind::Half, start, shape.0 * shape.1, 1), shape);
            }
        }
    }
}

/// Times the five calls on one grid; the row and the column are the middle ones.
fn shaped(driver: &Driver, input: &Input, shape: (usize, usize)) {
    let kind = format!("{} x {}", shape.0, shape.1);
    let at = input.start.to_string();
    let case = |call, ours, plain| {
        if driver.wants(call) {
            let label = Label { call, kind: &kind, at: &at, length: input.length };
            driver.case(label, Sides { ours, original: None, plain: Some(plain) });
        }
    };
    let new = || Case::new(input, shape);
    let (rows, columns) = shape;
    case(
        "grid_row",
        number(input, |m| calls::grid_row(m.mask, m.bytes(), rows, columns, rows / 2).mask.start),
        side(new(), |c| plain_grids::row(c.grid(), c.rows / 2).unwrap(), |_, start| vec![start as u64]),
    );
    case(
        "grid_column",
        side(
            new(),
            |c| calls::grid_column(c.input.mask, c.input.bytes(), c.rows, c.columns, c.columns / 2, &mut c.out).mask.length,
            |c, n| c.flags(n),
        ),
        side(new(), |c| plain_grids::column(c.grid(), c.columns / 2, &mut c.out).unwrap(), |c, n| c.flags(n)),
    );
    case(
        "grid_transpose",
        side(new(), |c| calls::grid_transpose(c.input.mask, c.input.bytes(), c.rows, c.columns, &mut c.out).mask.length, |c, n| c.flags(n)),
        side(new(), |c| plain_grids::transpose(c.grid(), &mut c.out).unwrap(), |c, n| c.flags(n)),
    );
    case(
        "grid_row_zeros",
        side(new(), |c| calls::grid_row_zeros(c.input.mask, c.input.bytes(), c.rows, c.columns, &mut c.counts).value, |c, n| c.numbers(n)),
        side(new(), |c| plain_grids::row_zeros(c.grid(), &mut c.counts).unwrap(), |c, n| c.numbers(n)),
    );
    case(
        "grid_column_zeros",
        side(
            new(),
            |c| calls::grid_column_zeros(c.input.mask, c.input.bytes(), c.rows, c.columns, &mut c.counts).value,
            |c, n| c.numbers(n),
        ),
        side(new(), |c| plain_grids::column_zeros(c.grid(), &mut c.counts).unwrap(), |c, n| c.numbers(n)),
    );
}
