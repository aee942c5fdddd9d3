//! The calls on words and over bare spans, and the dispatch.

use super::Call;
use crate::listed::{Listed, Met};
use crate::ours;
use crate::request::{Args, Request, Shape};
use crate::theirs::{Outcome, Theirs, at_address, bit_mask, bitmap};
use model::spans::Count;
use model::{dispatch, spans, words};
use original::bitmap::aligned::AlignedBitmapSlice;
use original::bitmap::utils::{self, BitChunks, BitChunksExact};
use original::bitmap::{and_not, bitmask};
use poruwhina::calls;

/// How far past the length the original is asked to search backwards: it takes a step for each 32 flags.
const FAR: usize = 4096;

/// Returns the original's split of the bytes at the request's address. All prefix is its fast path, which has no words.
fn their_split(r: &Request, _: &mut Met) -> Option<Outcome> {
    let span = r.span();
    at_address(span.bytes, r.n % 8, |bytes| {
        let split = AlignedBitmapSlice::<u64>::new(bytes, span.start, span.length);
        let all_prefix = split.prefix_bitlen() == span.length;
        let first = if all_prefix { 0 } else { split.bulk().as_ptr() as usize - bytes.as_ptr() as usize };
        let [prefix_len, first, words, suffix_len] =
            [split.prefix_bitlen(), first, split.bulk().len(), split.suffix_bitlen()].map(|n| n as u64);
        Some(Outcome::words([split.prefix(), prefix_len, first, words, split.suffix(), suffix_len]))
    })
}

fn their_count(r: &Request, count: fn(&[u8], usize, usize) -> usize) -> Option<Outcome> {
    let span = r.span();
    Some(Outcome::values([at_address(span.bytes, r.n % 8, |bytes| count(bytes, span.start, span.length))]))
}

/// A count over a span, by its name in the library and in the original, and by its case in the model.
macro_rules! counting {
    ($name:ident, $count:expr) => {
        Call {
            name: stringify!($name),
            shape: Shape::SPAN.args(Args::Address),
            ours: |r, _| ours::number(calls::$name(r.bytes(), r.span().start, r.span().length, r.n)),
            model: |r, _| spans::count($count, r.span(), r.n),
            theirs: Theirs::Answer(|r, _| their_count(r, utils::$name)),
        }
    };
}

fn their_chunks(r: &Request) -> BitChunks<'_, u64> {
    let span = r.span();
    BitChunks::new(span.bytes, span.start, span.length)
}

fn their_remainder(r: &Request, met: &mut Met) -> Option<Outcome> {
    let chunks = their_chunks(r);
    let (rest, many) = (chunks.remainder(), chunks.remainder_len());
    if r.span().start == 0 {
        let exact = BitChunksExact::<u64>::new(r.bytes(), r.span().length).remainder();
        if exact != rest {
            assert_eq!(exact & ((1 << many) - 1), rest, "the flags of BitChunksExact::remainder");
            met.note(Listed::ExactRemainder);
        }
    }
    Some(Outcome::words([rest, many as u64]))
}

fn their_parts(r: &Request, _: &mut Met) -> Option<Outcome> {
    // SAFETY: the split point of an accepted request is at most the length.
    let (left, right) = unsafe { bit_mask(&r.lent(0)).split_at_unchecked(r.n) };
    let (left, right) = (left.inner(), right.inner());
    Some(Outcome::values([left.1, left.2, right.1, right.2]))
}

/// Returns flag `truck` of `and_not` with both masks, and of the permission mask if only that is present. With no permission mask the
/// Rust has no rule.
fn their_reassign(r: &Request, _: &mut Met) -> Option<Outcome> {
    let may = match (r.optional(0), r.optional(1)) {
        (Some(permission), Some(revocation)) => and_not(&bitmap(permission), &bitmap(revocation)).get_bit(r.n),
        (Some(permission), None) => bitmap(permission).get_bit(r.n),
        (None, _) => return None,
    };
    Some(Outcome::values([may.into()]))
}

fn words() -> [Call; 4] {
    [
        Call {
            name: "load_padded_le_u64",
            shape: Shape::SPAN,
            ours: |r, _| ours::word(calls::load_padded_le_u64(r.bytes())),
            model: |r, _| words::load_padded_le_u64(r.bytes()),
            theirs: Theirs::Absent,
        },
        Call {
            name: "merge_reversed",
            shape: Shape::NOTHING.args(Args::Merge),
            ours: |r, _| ours::word(calls::merge_reversed(r.words[0], r.words[1], r.n)),
            model: |r, _| words::merge_reversed(r.words[0], r.words[1], r.n),
            theirs: Theirs::Answer(|r, _| {
                (1..64).contains(&r.n).then(|| Outcome::words([original::merge_reversed(r.words[0], r.words[1], r.n)]))
            }),
        },
        Call {
            name: "nth_set_bit_u64",
            shape: Shape::NOTHING.args(Args::Nth),
            ours: |r, _| ours::set_bit(calls::nth_set_bit_u64(r.words[0], r.n as u64)),
            model: |r, _| words::nth_set_bit(r.words[0], r.n as u64),
            theirs: Theirs::Answer(|r, _| Some(Outcome::words(bitmask::nth_set_bit_u64(r.words[0], r.n as u64)))),
        },
        Call {
            name: "nth_set_bit_u32",
            shape: Shape::NOTHING.args(Args::Nth),
            ours: |r, _| ours::set_bit(calls::nth_set_bit_u32(r.words[0] as u32, r.n as u32)),
            model: |r, _| words::nth_set_bit((r.words[0] as u32).into(), (r.n as u32).into()),
            theirs: Theirs::Answer(|r, _| Some(Outcome::words(bitmask::nth_set_bit_u32(r.words[0] as u32, r.n as u32).map(u64::from)))),
        },
    ]
}

fn over_spans() -> [Call; 12] {
    [
        Call {
            name: "aligned_new",
            shape: Shape::SPAN.args(Args::Address),
            ours: |r, _| ours::split(calls::aligned_new(r.bytes(), r.span().start, r.span().length, r.n)),
            model: |r, _| spans::aligned_new(r.span(), r.n),
            theirs: Theirs::Answer(their_split),
        },
        counting!(count_zeros, Count::Zeros),
        counting!(leading_zeros, Count::LeadingZeros),
        counting!(leading_ones, Count::LeadingOnes),
        counting!(trailing_zeros, Count::TrailingZeros),
        counting!(trailing_ones, Count::TrailingOnes),
        Call {
            name: "chunks_next",
            shape: Shape::CURSOR,
            ours: |r, _| ours::step(calls::chunks_next(ours::cursor(r.cursor()), r.bytes())),
            model: |r, _| spans::chunks_next(r.cursor(), r.bytes()),
            theirs: Theirs::Answer(|r, _| Some(Outcome::words(their_chunks(r).nth(r.place)))),
        },
        Call {
            name: "chunks_remainder",
            shape: Shape::CURSOR,
            ours: |r, _| ours::remainder(calls::chunks_remainder(ours::cursor(r.cursor()), r.bytes())),
            model: |r, _| spans::chunks_remainder(r.cursor(), r.bytes()),
            theirs: Theirs::Answer(their_remainder),
        },
        Call {
            name: "split_at_unchecked",
            shape: Shape::SPAN.args(Args::Inside),
            ours: |r, _| ours::spans(calls::split_at_unchecked(r.bytes(), r.span().start, r.span().length, r.n)),
            model: |r, _| spans::split_at_unchecked(r.span(), r.n),
            theirs: Theirs::Answer(their_parts),
        },
        Call {
            name: "get_u32",
            shape: Shape::SPAN.args(Args::Position),
            ours: |r, _| ours::number(calls::get_u32(r.bytes(), r.span().start, r.span().length, r.n)),
            model: |r, _| spans::get_u32(r.span(), r.n),
            theirs: Theirs::Answer(|r, _| (r.n <= usize::MAX - 32).then(|| Outcome::words([bit_mask(&r.lent(0)).get_u32(r.n).into()]))),
        },
        Call {
            name: "nth_set_bit_idx",
            shape: Shape::SPAN.args(Args::Search),
            ours: |r, _| ours::position(calls::nth_set_bit_idx(r.bytes(), r.span().start, r.span().length, r.n, r.m)),
            model: |r, _| spans::nth_set_bit_idx(r.span(), r.n, r.m),
            theirs: Theirs::Answer(|r, _| Some(Outcome::values(bit_mask(&r.lent(0)).nth_set_bit_idx(r.n, r.m)))),
        },
        Call {
            name: "nth_set_bit_idx_rev",
            shape: Shape::SPAN.args(Args::Search),
            ours: |r, _| ours::position(calls::nth_set_bit_idx_rev(r.bytes(), r.span().start, r.span().length, r.n, r.m)),
            model: |r, _| spans::nth_set_bit_idx_rev(r.span(), r.n, r.m),
            theirs: Theirs::Answer(|r, _| {
                let near = r.m <= r.span().length + FAR;
                near.then(|| Outcome::values(bit_mask(&r.lent(0)).nth_set_bit_idx_rev(r.n, r.m)))
            }),
        },
    ]
}

pub fn calls() -> Vec<Call> {
    let reassign = Call {
        name: "may_reassign",
        shape: Shape::masks(2).args(Args::Inside).optional(2),
        ours: |r, _| {
            let [permission, revocation, _] = &r.pieces;
            ours::flag(calls::may_reassign(
                r.present[0],
                ours::mask(permission.mask),
                &permission.bytes,
                r.present[1],
                ours::mask(revocation.mask),
                &revocation.bytes,
                r.n,
            ))
        },
        model: |r, _| dispatch::may_reassign(r.optional(0), r.optional(1), r.n),
        theirs: Theirs::Answer(their_reassign),
    };
    words().into_iter().chain(over_spans()).chain([reassign]).collect()
}
