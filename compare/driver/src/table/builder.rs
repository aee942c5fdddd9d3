//! The builder's calls.

use super::Call;
use crate::ours;
use crate::request::{Args, Kind, Shape};
use crate::theirs::{Outcome, Theirs, bitmap, built};
use model::builder;
use original::bitmap::BitmapBuilder;
use poruwhina::calls;

pub fn calls() -> Vec<Call> {
    appends().into_iter().chain(from_spans()).chain(ends()).collect()
}

fn appends() -> [Call; 3] {
    [
        Call {
            name: "push",
            shape: Shape::BUILDER.flag(),
            ours: |r, buf| ours::built(calls::push(ours::builder(r.builder), buf, r.flag)),
            model: |r, buf| builder::push(r.builder, buf, r.flag),
            theirs: Theirs::Append(|r, b| b.push(r.flag)),
        },
        Call {
            name: "extend_constant",
            shape: Shape::BUILDER.args(Args::Length).flag(),
            ours: |r, buf| ours::built(calls::extend_constant(ours::builder(r.builder), buf, r.n, r.flag)),
            model: |r, buf| builder::extend_constant(r.builder, buf, r.n, r.flag),
            theirs: Theirs::Append(|r, b| b.extend_constant(r.n, r.flag)),
        },
        Call {
            name: "push_word_with_len_unchecked",
            shape: Shape::BUILDER.args(Args::Word),
            ours: |r, buf| ours::built(calls::push_word_with_len_unchecked(ours::builder(r.builder), buf, r.words[0], r.n)),
            model: |r, buf| builder::push_word_with_len_unchecked(r.builder, buf, r.words[0], r.n),
            theirs: Theirs::Append(|r, b| {
                b.reserve(r.n);
                // SAFETY: the capacity was reserved; an accepted word has at most 64 flags and none beyond.
                unsafe { b.push_word_with_len_unchecked(r.words[0], r.n) }
            }),
        },
    ]
}

fn from_spans() -> [Call; 5] {
    [
        Call {
            name: "extend_from_slice",
            shape: Shape::BUILDER.from(Kind::Span),
            ours: |r, buf| {
                let span = r.span();
                ours::built(calls::extend_from_slice(ours::builder(r.builder), buf, span.bytes, span.start, span.length))
            },
            model: |r, buf| builder::extend_from_slice(r.builder, buf, r.span()),
            theirs: Theirs::Append(|r, b| b.extend_from_slice(r.bytes(), r.span().start, r.span().length)),
        },
        Call {
            name: "extend_each_repeated_from_slice_unchecked",
            shape: Shape::BUILDER.from(Kind::Span).args(Args::Repeats),
            ours: |r, buf| {
                let (b, span) = (ours::builder(r.builder), r.span());
                ours::built(calls::extend_each_repeated_from_slice_unchecked(b, buf, span.bytes, span.start, span.length, r.n))
            },
            model: |r, buf| builder::extend_each_repeated_from_slice_unchecked(r.builder, buf, r.span(), r.n),
            theirs: Theirs::Append(|r, b| b.extend_each_repeated_from_slice(r.bytes(), r.span().start, r.span().length, r.n)),
        },
        Call {
            name: "subslice_extend_from_bitmap",
            shape: Shape::BUILDER.from(Kind::Mask).args(Args::Inner),
            ours: |r, buf| {
                let (b, mask) = (ours::builder(r.builder), ours::mask(r.pieces[0].mask));
                ours::built(calls::subslice_extend_from_bitmap(b, buf, mask, r.bytes(), r.n, r.m))
            },
            model: |r, buf| builder::subslice_extend_from_bitmap(r.builder, buf, r.lent(0), r.n, r.m),
            theirs: Theirs::Append(|r, b| b.subslice_extend_from_bitmap(&bitmap(r.lent(0)), r.n, r.m)),
        },
        Call {
            name: "gather_extend_from_slice",
            shape: Shape::BUILDER.from(Kind::Span).args(Args::Indices),
            ours: |r, buf| {
                let (b, span) = (ours::builder(r.builder), r.span());
                ours::built(calls::gather_extend_from_slice(b, buf, span.bytes, span.start, span.length, &r.idxs))
            },
            model: |r, buf| builder::gather_extend_from_slice(r.builder, buf, r.span(), &r.idxs),
            // SAFETY: the indices of an accepted request are below the length.
            theirs: Theirs::Append(|r, b| unsafe { b.gather_extend_from_slice(r.bytes(), r.span().start, r.span().length, &r.idxs) }),
        },
        Call {
            name: "opt_gather_extend_from_slice",
            shape: Shape::BUILDER.from(Kind::Span).args(Args::Indices),
            ours: |r, buf| {
                let (b, span) = (ours::builder(r.builder), r.span());
                ours::built(calls::opt_gather_extend_from_slice(b, buf, span.bytes, span.start, span.length, &r.idxs))
            },
            model: |r, buf| builder::opt_gather_extend_from_slice(r.builder, buf, r.span(), &r.idxs),
            theirs: Theirs::Append(|r, b| b.opt_gather_extend_from_slice(r.bytes(), r.span().start, r.span().length, &r.idxs)),
        },
    ]
}

fn ends() -> [Call; 3] {
    [
        Call {
            name: "builder_new",
            shape: Shape::NOTHING,
            ours: |_, _| model::Answer::record(ours::builder_state(calls::builder_new())),
            model: |_, _| builder::new(),
            theirs: Theirs::Answer(|_, _| Some(Outcome { written: None, ..built(BitmapBuilder::new()) })),
        },
        Call {
            name: "freeze",
            shape: Shape::BUILDER,
            ours: |r, buf| ours::made(calls::freeze(ours::builder(r.builder), buf, r.builder.serial)),
            model: |r, buf| builder::freeze(r.builder, buf),
            theirs: Theirs::Finish(|b| Some(b.freeze())),
        },
        Call {
            name: "into_opt_validity",
            shape: Shape::BUILDER,
            ours: |r, buf| ours::validity(calls::into_opt_validity(ours::builder(r.builder), buf, r.builder.serial)),
            model: |r, buf| builder::into_opt_validity(r.builder, buf),
            theirs: Theirs::Finish(BitmapBuilder::into_opt_validity),
        },
    ]
}
