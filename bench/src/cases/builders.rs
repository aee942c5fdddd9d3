//! Appends to a builder. Ours starts from a record and writes to a lent buffer; the original's builder is cleared and keeps its
//! allocation, except in the last case, in which both begin with nothing.

use original::bitmap::{Bitmap, BitmapBuilder};
use poruwhina::calls::{self, Builder, BuilderAnswer};

use crate::cases::{SIZES, STARTS, span};
use crate::driver::{Driver, Label, Sides};
use crate::inputs::{Input, Kind, Words, words_of, words_of_bitmap};
use crate::plain::{self, Span};
use crate::timing::{Answer, Side, side};

/// The inputs of an append: a mask to append from, indices into it, single flags, and how many flags the builder has before.
struct Source {
    mask: Input,
    indices: Vec<u32>,
    flags: Vec<bool>,
    before: usize,
    /// Our builder: `before` ones, fewer than 64.
    builder: Builder,
}

impl Source {
    fn new(start: usize, length: usize, before: usize) -> Self {
        let mut words = Words::new(7);
        Source {
            mask: Input::new(Kind::Half, start, length, 1),
            indices: (0..1_000).map(|_| words.below(length as u64) as u32).collect(),
            flags: (0..1_000).map(|_| words.below(2) == 1).collect(),
            before,
            builder: Builder { length: before, word: (1 << before) - 1, ones: 0 },
        }
    }
}

fn frozen(builder: Builder, buf: &mut [u8]) -> Answer {
    let made = calls::freeze(builder, buf, 0);
    assert_eq!(made.refusal, 0);
    words_of(buf, made.mask.start, made.mask.length)
}

fn ours<'a>(source: &'a Source, append: impl Fn(&Source, Builder, &mut [u8]) -> BuilderAnswer + 'a) -> Box<dyn Side + 'a> {
    side(
        (source, vec![0u8; 1 << 20]),
        move |(source, buf)| append(source, source.builder, buf),
        |(_, buf), done| {
            assert_eq!(done.refusal, 0);
            frozen(done.builder, buf)
        },
    )
}

fn original<'a>(source: &'a Source, append: impl Fn(&Source, &mut BitmapBuilder) + 'a) -> Box<dyn Side + 'a> {
    side(
        (source, BitmapBuilder::new()),
        move |(source, builder)| {
            builder.clear();
            builder.extend_constant(source.before, true);
            append(source, builder);
        },
        |(_, builder), ()| words_of_bitmap(&std::mem::take(builder).freeze()),
    )
}

fn plainly<'a>(source: &'a Source, length: usize, write: impl Fn(&Source, &mut [u8]) + 'a) -> Box<dyn Side + 'a> {
    let out = vec![0u8; length.div_ceil(64) * 8];
    side((source, out), move |(source, out)| write(source, out), move |(_, out), ()| words_of(out, 0, length))
}

/// Runs a case for each size, in which the builder ends with as many flags.
fn each(
    driver: &Driver, (call, kind, at): (&str, Kind, &str), (before, start): (usize, usize),
    sides: impl for<'a> Fn(&'a Source, usize) -> Sides<'a>,
) {
    if !driver.wants(call) {
        return;
    }
    for length in SIZES {
        let source = Source::new(start, length - before, before);
        driver.case(Label { call, kind: kind.name(), at, length }, sides(&source, length));
    }
}

pub fn run(driver: &Driver) {
    push(driver);
    each(driver, ("extend_constant", Kind::Ones, "builder 3"), (3, 0), |source, _| Sides {
        ours: ours(source, |s, b, buf| calls::extend_constant(b, buf, s.mask.length, true)),
        original: Some(original(source, |s, b| b.extend_constant(s.mask.length, true))),
        plain: None,
    });
    for (at, before, start) in [("builder 0, source 0", 0, 0), ("builder 5, source 3", 5, 3)] {
        each(driver, ("extend_from_slice", Kind::Half, at), (before, start), |source, length| Sides {
            ours: ours(source, |s, b, buf| calls::extend_from_slice(b, buf, s.mask.bytes(), s.mask.start, s.mask.length)),
            original: Some(original(source, |s, b| b.extend_from_slice(s.mask.bytes(), s.mask.start, s.mask.length))),
            plain: Some(plainly(source, length, copy)),
        });
    }
    repeated(driver);
    gather(driver);
    from_nothing(driver);
}

/// Copies the builder's flags and the mask's after them word by word, without counting.
fn copy(source: &Source, out: &mut [u8]) {
    let (mask, before) = (&source.mask, source.before);
    if before == 0 {
        return plain::map(span(mask), out, |x| x);
    }
    let in_first = (64 - before).min(mask.length);
    let first = span(mask).first_word() << before | ((1 << before) - 1);
    let cut = u64::MAX >> (64 - before - in_first);
    out[..8].copy_from_slice(&(first & cut).to_le_bytes());
    plain::map(Span::new(mask.padded(), mask.start + in_first, mask.length - in_first), &mut out[8..], |x| x);
}

fn push(driver: &Driver) {
    let call = "push, 1,000 flags one by one";
    if !driver.wants(call) {
        return;
    }
    let source = Source::new(0, 1_000, 0);
    let sides = Sides {
        ours: ours(&source, |s, mut b, buf| {
            for flag in &s.flags {
                b = calls::push(b, buf, *flag).builder;
            }
            BuilderAnswer { refusal: 0, builder: b }
        }),
        original: Some(original(&source, |s, b| {
            for flag in &s.flags {
                b.push(*flag);
            }
        })),
        plain: None,
    };
    driver.case(Label { call, kind: Kind::Half.name(), at: "builder 0", length: 1_000 }, sides);
}

fn repeated(driver: &Driver) {
    let call = "extend_each_repeated, 3 times each";
    if !driver.wants(call) {
        return;
    }
    for start in STARTS {
        for length in SIZES {
            let source = Source::new(start, length / 3, 0);
            let sides = Sides {
                ours: ours(&source, |s, b, buf| {
                    calls::extend_each_repeated_from_slice_unchecked(b, buf, s.mask.bytes(), s.mask.start, s.mask.length, 3)
                }),
                original: Some(original(&source, |s, b| b.extend_each_repeated_from_slice(s.mask.bytes(), s.mask.start, s.mask.length, 3))),
                plain: None,
            };
            driver.case(Label { call, kind: Kind::Half.name(), at: &format!("builder 0, source {start}"), length }, sides);
        }
    }
}

fn gather(driver: &Driver) {
    for start in STARTS {
        let at = format!("builder 0, source {start}");
        each(driver, ("gather, 1,000 indices", Kind::Half, &at), (0, start), |source, _| Sides {
            ours: ours(source, |s, b, buf| {
                calls::gather_extend_from_slice(b, buf, s.mask.bytes(), s.mask.start, s.mask.length, &s.indices)
            }),
            // SAFETY: the indices lie below the mask's length.
            original: Some(original(source, |s, b| unsafe {
                b.gather_extend_from_slice(s.mask.bytes(), s.mask.start, s.mask.length, &s.indices)
            })),
            plain: None,
        });
        each(driver, ("opt_gather, 1,000 indices", Kind::Half, &at), (0, start), |source, _| Sides {
            ours: ours(source, |s, b, buf| {
                calls::opt_gather_extend_from_slice(b, buf, s.mask.bytes(), s.mask.start, s.mask.length, &s.indices)
            }),
            original: Some(original(source, |s, b| {
                b.opt_gather_extend_from_slice(s.mask.bytes(), s.mask.start, s.mask.length, &s.indices)
            })),
            plain: None,
        });
    }
}

/// Runs the cases of a new builder, an extension from a span and freezing: the original allocates its result.
fn from_nothing(driver: &Driver) {
    for start in STARTS {
        let at = format!("source {start}");
        each(driver, ("new, extend_from_slice, freeze", Kind::Half, &at), (0, start), |source, _| Sides {
            ours: side(
                (source, vec![0u8; 1 << 20]),
                |(s, buf)| {
                    let extended = calls::extend_from_slice(calls::builder_new(), buf, s.mask.bytes(), s.mask.start, s.mask.length);
                    calls::freeze(extended.builder, buf, 0)
                },
                |(_, buf), made| {
                    assert_eq!(made.refusal, 0);
                    words_of(buf, made.mask.start, made.mask.length)
                },
            ),
            original: Some(side(source, |s| build(s), |_, bitmap| words_of_bitmap(&bitmap))),
            plain: None,
        });
    }
}

fn build(source: &Source) -> Bitmap {
    let mut builder = BitmapBuilder::new();
    builder.extend_from_slice(source.mask.bytes(), source.mask.start, source.mask.length);
    builder.freeze()
}
