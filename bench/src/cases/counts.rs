//! Counts over one span or two masks, and the comparison of two masks.

use original::bitmap::utils;
use poruwhina::calls::{self, NumberAnswer};

use crate::cases::span;
use crate::driver::{Driver, Sides};
use crate::inputs::{Input, Kind};
use crate::plain;
use crate::timing::{Side, number, side};

fn end(
    driver: &Driver, call: &str, kind: Kind, ours: impl Fn(&[u8], usize, usize, usize) -> NumberAnswer + Copy + 'static,
    original: impl Fn(&[u8], usize, usize) -> usize + Copy + 'static,
) {
    driver.each(call, kind, &[1], |m| Sides {
        ours: number(&m[0], move |m| ours(m.bytes(), m.start, m.length, m.bytes().as_ptr() as usize % 8).value),
        original: Some(number(&m[0], move |m| original(m.bytes(), m.start, m.length))),
        plain: None,
    });
}

/// Returns a side that answers a count over two masks, or 1 or 0 for whether they are equal.
fn of_two<'a>(m: &'a [Input], call: impl Fn(&Input, &Input) -> usize + 'a) -> Box<dyn Side + 'a> {
    side((&m[0], &m[1]), move |(a, b)| call(a, b), |_, n| vec![n as u64])
}

pub fn run(driver: &Driver) {
    driver.each("count_zeros", Kind::Half, &[1], |m| Sides {
        ours: number(&m[0], |m| calls::count_zeros(m.bytes(), m.start, m.length, m.bytes().as_ptr() as usize % 8).value),
        original: Some(number(&m[0], |m| utils::count_zeros(m.bytes(), m.start, m.length))),
        plain: Some(number(&m[0], |m| m.length - plain::count(span(m), span(m), |x, _| x))),
    });
    end(driver, "leading_zeros", Kind::Zeros, calls::leading_zeros, utils::leading_zeros);
    end(driver, "leading_ones", Kind::Ones, calls::leading_ones, utils::leading_ones);
    end(driver, "leading_ones", Kind::Half, calls::leading_ones, utils::leading_ones);
    end(driver, "trailing_zeros", Kind::Zeros, calls::trailing_zeros, utils::trailing_zeros);
    end(driver, "trailing_zeros", Kind::Half, calls::trailing_zeros, utils::trailing_zeros);
    end(driver, "trailing_ones", Kind::Ones, calls::trailing_ones, utils::trailing_ones);

    driver.each("eq", Kind::Half, &[1, 1], |m| Sides {
        ours: of_two(m, |a, b| calls::eq(a.mask, a.bytes(), b.mask, b.bytes()).value as usize),
        original: Some(of_two(m, |a, b| (a.bitmap == b.bitmap) as usize)),
        plain: Some(of_two(m, |a, b| plain::eq(span(a), span(b)) as usize)),
    });
    driver.each("superseding, equal serials", Kind::Half, &[1, 1], |m| Sides {
        ours: of_two(m, |a, b| part(calls::superseding(a.mask, a.bytes(), b.mask, b.bytes()))),
        original: None,
        plain: Some(of_two(m, |a, b| if plain::eq(span(a), span(b)) { plain_part(a) } else { 0 })),
    });
    driver.each("superseding, other serials", Kind::Half, &[1, 2], |m| Sides {
        ours: of_two(m, |a, b| part(calls::superseding(a.mask, a.bytes(), calls::Mask { serial: 1, ..b.mask }, b.bytes()))),
        original: None,
        plain: Some(of_two(m, |_, b| plain_part(b))),
    });
    driver.each("num_edges", Kind::Half, &[1], |m| Sides {
        ours: number(&m[0], |m| calls::num_edges(m.mask, m.bytes()).value),
        original: Some(number(&m[0], |m| m.bitmap.num_edges())),
        plain: Some(number(&m[0], plain_edges)),
    });
    driver.each("num_intersections_with", Kind::Half, &[1, 2], |m| Sides {
        ours: of_two(m, |a, b| calls::num_intersections_with(a.mask, a.bytes(), b.mask, b.bytes()).value),
        original: Some(of_two(m, |a, b| a.bitmap.num_intersections_with(&b.bitmap))),
        plain: Some(of_two(m, |a, b| plain::count(span(a), span(b), |x, y| x & y))),
    });
}

fn plain_edges(m: &Input) -> usize {
    let shorter = m.length - 1;
    let here = plain::Span::new(m.padded(), m.start, shorter);
    let next = plain::Span::new(m.padded(), m.start + 1, shorter);
    plain::count(here, next, |x, y| x ^ y)
}

/// Returns how many bytes the winner's part has.
fn part(answer: calls::PartAnswer) -> usize {
    answer.to - answer.from
}

fn plain_part(m: &Input) -> usize {
    (m.start + m.length).div_ceil(8) - m.start / 8
}
