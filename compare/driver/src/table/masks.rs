//! The calls that make a mask, cut it, count it, compare it and combine it.

use super::Call;
use crate::listed::Met;
use crate::ours;
use crate::request::{Args, Request, Shape};
use crate::theirs::{Outcome, Theirs, bitmap, mask};
use model::combine::Op;
use model::{State, combine};
use original::bitmap::{self, Bitmap};
use poruwhina::calls;

pub fn calls() -> Vec<Call> {
    makers().into_iter().chain(readers()).chain(combinations()).collect()
}

/// Returns the original's mask or refusal; it takes only a start of 0, and refuses a length that does not fit.
fn their_try_new(r: &Request, refusal: u8, _: &mut Met) -> Option<Outcome> {
    if r.span().start != 0 || !matches!(refusal, 0 | 2) {
        return None;
    }
    Some(match Bitmap::try_new(r.bytes().to_vec(), r.span().length) {
        Ok(made) => Outcome::mask(&made),
        Err(_) => Outcome { refusal: 2, ..Outcome::default() },
    })
}

fn their_slice(r: &Request, _: &mut Met) -> Option<Outcome> {
    let mut cut = bitmap(r.lent(0));
    cut.slice(r.n, r.m);
    Some(Outcome::mask(&cut))
}

fn their_unset_bits(r: &Request, _: &mut Met) -> Option<Outcome> {
    let counted = bitmap(r.lent(0));
    let zeros = counted.unset_bits();
    Some(Outcome::values([zeros]).record(State::Mask(mask(&counted))))
}

fn makers() -> [Call; 4] {
    [
        Call {
            name: "bitmap_new",
            shape: Shape::NOTHING,
            ours: |_, _| ours::new_mask(calls::bitmap_new()),
            model: |_, _| model::mask::new(),
            theirs: Theirs::Answer(|_, _| Some(Outcome::mask(&Bitmap::new()))),
        },
        Call {
            name: "new_zeroed",
            shape: Shape::NOTHING.args(Args::Length).writes(),
            ours: |r, out| ours::made(calls::new_zeroed(r.n, out)),
            model: |r, out| model::mask::new_zeroed(r.n, out),
            theirs: Theirs::Combine(|r, _| Bitmap::new_zeroed(r.n)),
        },
        Call {
            name: "try_new",
            shape: Shape::SPAN,
            ours: |r, _| ours::made(calls::try_new(r.bytes(), r.span().start, r.span().length)),
            model: |r, _| model::mask::try_new(r.span()),
            theirs: Theirs::Refusing(their_try_new),
        },
        Call {
            name: "slice",
            shape: Shape::masks(1).args(Args::Inner),
            ours: |r, _| ours::sliced(r.pieces[0].mask, |mask| calls::slice(mask, r.bytes(), r.n, r.m)),
            model: |r, _| model::mask::slice(r.lent(0), r.n, r.m),
            theirs: Theirs::Answer(their_slice),
        },
    ]
}

fn readers() -> [Call; 4] {
    [
        Call {
            name: "unset_bits",
            shape: Shape::masks(1),
            ours: |r, _| ours::counted(r.pieces[0].mask, |mask| calls::unset_bits(mask, r.bytes())),
            model: |r, _| model::mask::unset_bits(r.lent(0)),
            theirs: Theirs::Answer(their_unset_bits),
        },
        Call {
            name: "eq",
            shape: Shape::masks(2),
            ours: |r, _| {
                let [lhs, rhs, _] = &r.pieces;
                ours::flag(calls::eq(ours::mask(lhs.mask), &lhs.bytes, ours::mask(rhs.mask), &rhs.bytes))
            },
            model: |r, _| model::mask::eq(r.lent(0), r.lent(1)),
            theirs: Theirs::Answer(|r, _| Some(Outcome::values([usize::from(bitmap(r.lent(0)) == bitmap(r.lent(1)))]))),
        },
        Call {
            name: "num_edges",
            shape: Shape::masks(1),
            ours: |r, _| ours::number(calls::num_edges(ours::mask(r.pieces[0].mask), r.bytes())),
            model: |r, _| model::mask::num_edges(r.lent(0)),
            theirs: Theirs::Answer(|r, _| Some(Outcome::values([bitmap(r.lent(0)).num_edges()]))),
        },
        Call {
            name: "num_intersections_with",
            shape: Shape::masks(2),
            ours: |r, _| {
                let [lhs, rhs, _] = &r.pieces;
                ours::number(calls::num_intersections_with(ours::mask(lhs.mask), &lhs.bytes, ours::mask(rhs.mask), &rhs.bytes))
            },
            model: |r, _| model::mask::num_intersections_with(r.lent(0), r.lent(1)),
            theirs: Theirs::Answer(|r, _| Some(Outcome::values([bitmap(r.lent(0)).num_intersections_with(&bitmap(r.lent(1)))]))),
        },
    ]
}

/// A combination of two masks, by its name in the library and in the original, and by its case in the model.
macro_rules! combining {
    ($name:ident, $op:expr) => {
        Call {
            name: stringify!($name),
            shape: Shape::masks(2).writes(),
            ours: |r, out| {
                let [lhs, rhs, _] = &r.pieces;
                ours::made(calls::$name(ours::mask(lhs.mask), &lhs.bytes, ours::mask(rhs.mask), &rhs.bytes, out))
            },
            model: |r, out| combine::combine($op, r.lent(0), r.lent(1), out),
            theirs: Theirs::Combine(|_, masks| bitmap::$name(&masks[0], &masks[1])),
        }
    };
}

fn combinations() -> [Call; 8] {
    [
        combining!(and, Op::And),
        combining!(and_not, Op::AndNot),
        combining!(or, Op::Or),
        combining!(or_not, Op::OrNot),
        combining!(xor, Op::Xor),
        Call {
            name: "not",
            shape: Shape::masks(1).writes(),
            ours: |r, out| ours::made(calls::not(ours::mask(r.pieces[0].mask), r.bytes(), out)),
            model: |r, out| combine::not(r.lent(0), out),
            theirs: Theirs::Combine(|_, masks| !&masks[0]),
        },
        Call {
            name: "select",
            shape: Shape::masks(3).writes(),
            ours: |r, out| {
                let [by, yes, no] = &r.pieces;
                let [selector, truthy, falsy] = [by, yes, no].map(|piece| ours::mask(piece.mask));
                ours::made(calls::select(selector, &by.bytes, truthy, &yes.bytes, falsy, &no.bytes, out))
            },
            model: |r, out| combine::select(r.lent(0), r.lent(1), r.lent(2), out),
            theirs: Theirs::Combine(|_, masks| masks[0].select(&masks[1], &masks[2])),
        },
        Call {
            name: "select_constant",
            shape: Shape::masks(2).writes().flag(),
            ours: |r, out| {
                let [by, yes, _] = &r.pieces;
                ours::made(calls::select_constant(ours::mask(by.mask), &by.bytes, ours::mask(yes.mask), &yes.bytes, r.flag, out))
            },
            model: |r, out| combine::select_constant(r.lent(0), r.lent(1), r.flag, out),
            theirs: Theirs::Combine(|r, masks| masks[0].select_constant(&masks[1], r.flag)),
        },
    ]
}
