//! Searches, slices, the calls of dispatch, and the cost of a foreign call.

use original::bitmap::bitmask::BitMask;
use poruwhina::calls;

use crate::cases::span;
use crate::driver::{Driver, Label, Sides};
use crate::inputs::{Input, Kind};
use crate::plain;
use crate::timing::{number, side};

/// Returns the number of the middle one of the set flags.
fn middle(m: &Input) -> usize {
    (m.length - m.zeros) / 2
}

fn bitmask(m: &Input) -> BitMask<'_> {
    BitMask::new(m.bytes(), m.start, m.length)
}

fn found(position: Option<usize>) -> usize {
    position.unwrap_or(usize::MAX)
}

fn ours_found(p: calls::PositionAnswer) -> usize {
    found(p.found.then_some(p.value))
}

/// Returns the offset and length of a slice without a tenth of the mask at each end: its zeros are counted from those of the two ends.
fn cut(m: &Input) -> (usize, usize) {
    (m.length / 10, m.length - m.length / 5)
}

fn flag(m: &Input, j: usize) -> bool {
    m.bytes()[(m.start + j) / 8] >> ((m.start + j) % 8) & 1 == 1
}

pub fn run(driver: &Driver) {
    driver.each("nth_set_bit_idx, the middle one", Kind::Half, &[1], |m| Sides {
        ours: number(&m[0], |m| ours_found(calls::nth_set_bit_idx(m.bytes(), m.start, m.length, middle(m), 0))),
        original: Some(number(&m[0], |m| found(bitmask(m).nth_set_bit_idx(middle(m), 0)))),
        plain: Some(number(&m[0], |m| found(plain::nth_set_bit(span(m), middle(m))))),
    });
    driver.each("nth_set_bit_idx_rev, the middle one", Kind::Half, &[1], |m| Sides {
        ours: number(&m[0], |m| ours_found(calls::nth_set_bit_idx_rev(m.bytes(), m.start, m.length, middle(m), m.length))),
        original: Some(number(&m[0], |m| found(bitmask(m).nth_set_bit_idx_rev(middle(m), m.length)))),
        plain: None,
    });
    driver.each("slice, a tenth off each end", Kind::Half, &[1], |m| Sides {
        ours: side(
            &m[0],
            |m| calls::slice(m.counted, m.bytes(), cut(m).0, cut(m).1).mask,
            |_, cut| vec![cut.length as u64, cut.zeros as u64],
        ),
        original: Some(side(
            &m[0],
            |m| m.bitmap.clone().sliced(cut(m).0, cut(m).1),
            |_, cut| vec![cut.len() as u64, cut.lazy_unset_bits().unwrap() as u64],
        )),
        plain: None,
    });
    driver.each("may_reassign", Kind::Half, &[1, 2], |m| Sides {
        ours: side((&m[0], &m[1]), |(p, r)| may_reassign(p, r), |_, may| vec![may as u64]),
        original: None,
        plain: Some(side((&m[0], &m[1]), |(p, r)| flag(p, p.length / 2) && !flag(r, p.length / 2), |_, may| vec![may as u64])),
    });
    for kind in [Kind::Half, Kind::Ones] {
        driver.each("may_reassign, counts checked", kind, &[1, 2], |m| Sides {
            ours: side((&m[0], &m[1]), |(p, r)| may_reassign_counted(p, r), |_, may| vec![may as u64]),
            original: None,
            plain: Some(side((&m[0], &m[1]), |(p, r)| flag(p, p.length / 2) && !flag(r, p.length / 2), |_, may| vec![may as u64])),
        });
    }
    driver.each("offer, every truck revoked", Kind::Half, &[1], |m| Sides {
        ours: side(&m[0], |m| offer(m, m), |_, got| got.to_vec()),
        original: None,
        plain: Some(side(&m[0], |m| plain_offer(m, m), |_, got| got.to_vec())),
    });
}

/// Asks for a truck, from the middle, when every permitted truck is revoked: all windows are read.
fn offer(permission: &Input, revocation: &Input) -> [u64; 2] {
    let answer = calls::offer(true, permission.mask, permission.bytes(), true, revocation.mask, revocation.bytes(), permission.length / 2);
    [answer.found.into(), answer.windows as u64]
}

fn plain_offer(permission: &Input, revocation: &Input) -> [u64; 2] {
    let (starts, length) = ([permission.start, revocation.start], permission.length);
    let (truck, windows) = plain::next_and_not([permission.padded(), revocation.padded()], starts, length, length / 2);
    [truck.is_some().into(), windows as u64]
}

fn may_reassign(permission: &Input, revocation: &Input) -> bool {
    let truck = permission.length / 2;
    calls::may_reassign(true, permission.mask, permission.bytes(), true, revocation.mask, revocation.bytes(), truck).value
}

fn may_reassign_counted(permission: &Input, revocation: &Input) -> bool {
    let truck = permission.length / 2;
    calls::may_reassign(true, permission.counted, permission.bytes(), true, revocation.counted, revocation.bytes(), truck).value
}

/// Times a call that does almost nothing, compared with the same two shifts in place.
pub fn boundary(driver: &Driver) {
    let call = "merge_reversed";
    if !driver.wants(call) {
        return;
    }
    let words = (0x0123_4567_89AB_CDEF_u64, 0x0F1E_2D3C_4B5A_6978_u64, 5usize);
    let sides = Sides {
        ours: side(words, |w| calls::merge_reversed(w.0, w.1, w.2), |_, w| vec![w]),
        original: None,
        plain: Some(side(words, |w| w.0 >> w.2 | w.1 << (64 - w.2), |_, w| vec![w])),
    };
    driver.case(Label { call, kind: "two words", at: "5", length: 40 }, sides);
}
