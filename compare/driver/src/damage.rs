//! Damaged requests: numbers changed, bytes cut short.

use crate::choices::{Choices, Random};
use crate::request::{Bytes, Request};
use crate::wide::extreme;

/// Returns a number near the old one, or at a limit.
fn changed(old: usize, random: &mut Random) -> usize {
    match random.below(6) {
        0 => old.wrapping_add(1),
        1 => old.wrapping_sub(1),
        2 => old.wrapping_add(random.below(80)),
        3 => random.below(old.saturating_add(1)),
        _ => extreme(random),
    }
}

/// Changes one to three parts of the request, whether its call reads them or not.
pub fn damage(r: &mut Request, random: &mut Random) {
    for _ in 0..=random.below(3) {
        let i = random.below(r.pieces.len());
        let piece = &mut r.pieces[if random.once_in(2) { 0 } else { i }];
        match random.below(13) {
            0 => piece.mask.start = changed(piece.mask.start, random),
            1 => piece.mask.length = changed(piece.mask.length, random),
            2 => piece.mask.zeros = Some(changed(piece.mask.zeros.unwrap_or(piece.mask.length), random)),
            3 => cut(&mut piece.bytes, random),
            4 => r.builder.length = changed(r.builder.length, random),
            5 => r.builder.ones = changed(r.builder.ones, random),
            6 => r.builder.word ^= 1 << random.below(64),
            7 => r.place = changed(r.place, random),
            8 => r.n = changed(r.n, random),
            9 => r.m = changed(r.m, random),
            10 => r.words[0] ^= 1 << random.below(64),
            11 => r.idxs.push(extreme(random) as u32),
            _ => cut(&mut r.out, random),
        }
    }
}

/// Cuts bytes off the end, mostly one.
fn cut(bytes: &mut Bytes, random: &mut Random) {
    let many = if random.once_in(4) { random.below(bytes.len() + 1) } else { 1 };
    bytes.truncate(bytes.len().saturating_sub(many));
}
