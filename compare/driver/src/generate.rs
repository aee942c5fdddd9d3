//! Makes a request of a shape in a style.

use crate::request::{Args, Bytes, Kind, Piece, Request, Shape, Target};
use crate::style::Style;
use model::{Builder, LIMIT, Mask, frozen_size, zeros};

/// The most bytes of an output, however many are needed.
const MOST: u128 = LIMIT as u128 / 8 + 64;

/// Returns a request of a shape, drawn in a style.
pub fn generate(shape: Shape, style: &mut impl Style) -> Request {
    let mut r = Request { masked: true, ..Request::default() };
    let length = if shape.pieces > 0 { style.length() } else { 0 };
    for i in 0..shape.pieces {
        let length = if i == 0 { length } else { style.beside(length) };
        r.pieces[i] = piece(shape.kind, length, style);
    }
    for present in &mut r.present[..shape.optional] {
        *present = style.flip();
    }
    if shape.kind == Kind::Cursor {
        r.place = style.inside(length);
        r.masked = !(shape.maskless && style.flip());
    }
    r.flag = shape.flag && style.flip();
    let appended = arguments(shape, length, &mut r, style);
    match shape.target {
        Target::None => {}
        Target::Output => {
            let length = if shape.pieces > 0 { length } else { r.n };
            r.out = output(bytes_for(length as u128), style);
        }
        Target::Builder => builder(&mut r, appended, style),
        Target::Entries => {
            let entries = style.entries(ones_left(&r));
            r.out = Bytes::new(&style.fill(4 * entries), style.address());
        }
    }
    r
}

/// Returns how many positions a cursor has left, or about as many if it is refused.
fn ones_left(r: &Request) -> usize {
    if r.masked && r.pieces[0].inside() {
        return r.lent(0).flags().into_iter().skip(r.place).filter(|&flag| flag).count();
    }
    r.cursor().length.saturating_sub(r.place)
}

/// Returns how many bytes the frozen bytes of `length` flags take, at most `MOST`.
fn bytes_for(length: u128) -> usize {
    frozen_size(length).min(MOST) as usize
}

/// Returns an output of about `needed` bytes of any content.
pub fn output(needed: usize, style: &mut impl Style) -> Bytes {
    let many = style.room(needed);
    Bytes::new(&style.fill(many), style.address())
}

/// Returns a piece whose span or mask has `length` flags.
pub fn piece(kind: Kind, length: usize, style: &mut impl Style) -> Piece {
    let start = style.start();
    let bytes = Bytes::new(&style.bytes(start, length), style.address());
    let mut piece = Piece { mask: Mask { start, length, zeros: None, serial: 0 }, bytes };
    if kind == Kind::Mask {
        let zeros = if piece.inside() { zeros(&piece.lent().flags()) } else { 0 };
        piece.mask.zeros = style.zeros(zeros, length);
    }
    piece
}

/// Draws the call's numbers and returns how many flags it appends if it is an append.
pub fn arguments(shape: Shape, length: usize, r: &mut Request, style: &mut impl Style) -> u128 {
    match shape.args {
        Args::None => return if shape.pieces > 0 { length as u128 } else { u128::from(shape.flag) },
        Args::Address => r.n = style.below(9),
        Args::Position => r.n = style.position(length),
        Args::Inside => r.n = style.inside(length),
        Args::Search => (r.n, r.m) = (style.position(length), style.position(length)),
        Args::Length => {
            r.n = style.length();
            return r.n as u128;
        }
        Args::SameLength => r.n = style.beside(length),
        Args::Inner => {
            (r.n, r.m) = inner(length, style);
            return r.m as u128;
        }
        Args::Word => {
            r.n = style.position(64);
            r.words[0] = style.word() & if r.n < 64 { (1 << r.n) - 1 } else { u64::MAX };
            return r.n as u128;
        }
        Args::Repeats => {
            r.n = style.below(4);
            return r.n as u128 * length as u128;
        }
        Args::Indices => {
            let past = style.below(3) == 0;
            let bound = if past { length + 3 } else { length.max(1) };
            r.idxs = (0..style.many()).map(|_| style.below(bound) as u32).collect();
            return r.idxs.len() as u128;
        }
        Args::Merge => {
            r.words = [style.word(), style.word()];
            r.n = style.position(64);
        }
        Args::Nth => {
            r.words[0] = style.word();
            r.n = style.position(8);
        }
    }
    0
}

/// Returns the offset and length of a piece of a mask, mostly inside.
fn inner(length: usize, style: &mut impl Style) -> (usize, usize) {
    if let Some(kept) = style.kept(length) {
        return (style.below(length - kept + 1), kept);
    }
    let offset = style.inside(length);
    (offset, style.inside(length.saturating_sub(offset)))
}

/// Draws a builder with true ones, and a buffer of about the size for the flags to be appended.
fn builder(r: &mut Request, appended: u128, style: &mut impl Style) {
    let length = style.builder_length();
    let word = style.word() & ((1 << (length % 64)) - 1);
    r.out = output(bytes_for(length as u128 + appended), style);
    let ones: u32 = r.out.iter().take(8 * (length / 64)).map(|byte| byte.count_ones()).sum();
    r.builder = Builder { length, word, ones: ones as usize, serial: 0 };
}
