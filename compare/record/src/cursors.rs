//! The iterators over flags, runs and positions.

use crate::draw::Draw;
use crate::list::{List, Numbers};
use crate::masks::bitmap;
use original::bitmap::iterator::TrueIdxIter;
use original::bitmap::utils::{BitmapIter, SlicesIterator};

/// Records the iterators over spans of x.
pub fn record(list: &mut List, draw: &mut Draw, x: &[u8]) {
    for _ in 0..50 {
        let (start, length) = draw.span(x.len());
        let mask = bitmap(x, start, length, false);
        let runs = SlicesIterator::new(&mask).fold(Numbers::default(), |all, (start, length)| all.number(start).number(length));
        list.record("SlicesIterator", Numbers::of(&[start, length]), runs);
    }
    for _ in 0..20 {
        let (start, length) = draw.span(x.len());
        let mask = bitmap(x, start, length, false);
        list.record("TrueIdxIter", Numbers::of(&[start, length]), positions(TrueIdxIter::new(length, Some(&mask))));
    }
    for _ in 0..80 {
        flags(list, draw, x);
    }
    for _ in 0..5 {
        let length = draw.length(130);
        list.record("TrueIdxIter_without_mask", Numbers::of(&[length]), positions(TrueIdxIter::new(length, None)));
    }
}

fn positions(iter: TrueIdxIter<'_>) -> Numbers {
    iter.fold(Numbers::default(), |all, position| all.number(position))
}

/// Records some steps of one iterator, at times past its end.
fn flags(list: &mut List, draw: &mut Draw, x: &[u8]) {
    let (start, length) = draw.span(x.len());
    let mut iter = BitmapIter::new(x, start, length);
    let mut request = Numbers::of(&[start, length]);
    let mut answer = Numbers::default();
    for _ in 0..1 + draw.below(12) {
        let step = draw.below(6);
        match step {
            0 => answer = answer.number(iter.take_leading_ones()),
            1 => answer = answer.number(iter.take_leading_zeros()),
            _ => {
                let n = if step == 2 { 0 } else { draw.below(length / step + 2) };
                request = request.number(n + 2);
                answer = answer.count(iter.nth(n).map(usize::from));
                continue;
            }
        }
        request = request.number(step);
    }
    list.record("BitmapIter", request, answer);
}
