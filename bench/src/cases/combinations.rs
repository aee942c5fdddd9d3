//! Combinations flag by flag. Ours writes into a lent output; the original allocates its result, as its users get it.

use std::ops::Not;

use original::bitmap::{self, Bitmap};
use poruwhina::calls::{self, Mask, MaskAnswer};

use crate::cases::span;
use crate::driver::{Driver, Sides};
use crate::inputs::{Input, Kind, words_of, words_of_bitmap};
use crate::plain;
use crate::timing::{Side, side};

/// Returns a side that writes its result into a lent output and answers a refusal, 0 for none.
fn writing<'a>(m: &'a [Input], run: impl Fn(&[Input], &mut [u8]) -> u8 + 'a) -> Box<dyn Side + 'a> {
    let length = m[0].length;
    let out = vec![0u8; length.div_ceil(64) * 8];
    side(
        (m, out),
        move |(m, out)| run(m, out),
        move |(_, out), refusal| {
            assert_eq!(refusal, 0);
            words_of(out, 0, length)
        },
    )
}

fn plainly<'a>(m: &'a [Input], run: impl Fn(&[Input], &mut [u8]) + 'a) -> Box<dyn Side + 'a> {
    writing(m, move |m, out| {
        run(m, out);
        0
    })
}

fn allocating<'a>(m: &'a [Input], run: impl Fn(&[Input]) -> Bitmap + 'a) -> Box<dyn Side + 'a> {
    side(m, move |m| run(m), |_, bitmap| words_of_bitmap(&bitmap))
}

/// Runs the cases of a combination of two masks with unknown counts.
fn pair(
    driver: &Driver, call: &str, ours: impl Fn(Mask, &[u8], Mask, &[u8], &mut [u8]) -> MaskAnswer + Copy + 'static,
    original: impl Fn(&Bitmap, &Bitmap) -> Bitmap + Copy + 'static, word: impl Fn(u64, u64) -> u64 + Copy + 'static,
) {
    driver.each(call, Kind::Half, &[1, 2], |m| Sides {
        ours: writing(m, move |m, out| ours(m[0].mask, m[0].bytes(), m[1].mask, m[1].bytes(), out).refusal),
        original: Some(allocating(m, move |m| original(&m[0].bitmap, &m[1].bitmap))),
        plain: Some(plainly(m, move |m, out| plain::combine(span(&m[0]), span(&m[1]), out, word))),
    });
}

/// Runs the cases of a combination of two masks with known counts, which the library checks.
fn known(
    driver: &Driver, call: &str, ours: impl Fn(Mask, &[u8], Mask, &[u8], &mut [u8]) -> MaskAnswer + Copy + 'static,
    original: impl Fn(&Bitmap, &Bitmap) -> Bitmap + Copy + 'static,
) {
    driver.each(call, Kind::Half, &[1, 2], |m| Sides {
        ours: writing(m, move |m, out| ours(m[0].counted, m[0].bytes(), m[1].counted, m[1].bytes(), out).refusal),
        original: Some(allocating(m, move |m| original(&m[0].bitmap, &m[1].bitmap))),
        plain: None,
    });
}

pub fn run(driver: &Driver) {
    pair(driver, "and", calls::and, bitmap::and, |x, y| x & y);
    driver.each("and, zeros not counted", Kind::Half, &[1, 2], |m| Sides {
        ours: writing(m, |m, out| calls::and(m[0].mask, m[0].bytes(), m[1].mask, m[1].bytes(), out).refusal),
        original: Some(allocating(m, |m| bitmap::and(&m[0].uncounted_bitmap.clone(), &m[1].uncounted_bitmap.clone()))),
        plain: None,
    });
    known(driver, "and, counts checked", calls::and, bitmap::and);
    pair(driver, "and_not", calls::and_not, bitmap::and_not, |x, y| x & !y);
    known(driver, "and_not, counts checked", calls::and_not, bitmap::and_not);
    pair(driver, "or_not", calls::or_not, bitmap::or_not, |x, y| x | !y);
    pair(driver, "xor", calls::xor, bitmap::xor, |x, y| x ^ y);
    driver.each("not", Kind::Half, &[1], |m| Sides {
        ours: writing(m, |m, out| calls::not(m[0].mask, m[0].bytes(), out).refusal),
        original: Some(allocating(m, |m| (&m[0].bitmap).not())),
        plain: Some(plainly(m, |m, out| plain::map(span(&m[0]), out, |x| !x))),
    });
    driver.each("select", Kind::Half, &[1, 2, 3], |m| Sides {
        ours: writing(m, |m, out| ours_select(&m[0], &m[1], &m[2], out).refusal),
        original: Some(allocating(m, |m| m[0].bitmap.select(&m[1].bitmap, &m[2].bitmap))),
        plain: Some(plainly(m, |m, out| {
            plain::combine_three([span(&m[0]), span(&m[1]), span(&m[2])], out, |by, yes, no| (by & yes) | (!by & no))
        })),
    });
}

fn ours_select(by: &Input, yes: &Input, no: &Input, out: &mut [u8]) -> MaskAnswer {
    calls::select(by.mask, by.bytes(), yes.mask, yes.bytes(), no.mask, no.bytes(), out)
}
