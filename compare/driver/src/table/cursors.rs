//! The cursors over words, runs, flags and positions. A new cursor is compared whole, from its first answer to its end.

use super::Call;
use crate::listed::Met;
use crate::ours;
use crate::request::{Args, Request, Shape};
use crate::theirs::{Outcome, Theirs, Visit, bitmap};
use model::{Answer, Cursor, Lent, Mask, State, cursors, spans};
use original::bitmap::Bitmap;
use original::bitmap::iterator::TrueIdxIter;
use original::bitmap::utils::{BitChunks, BitChunksExact, BitmapIter, SlicesIterator};
use poruwhina::calls;

pub fn calls() -> Vec<Call> {
    new_cursors().into_iter().chain(steps()).collect()
}

fn next_chunk(cursor: Cursor, bytes: &[u8]) -> Answer {
    ours::step(calls::chunks_next(ours::cursor(cursor), bytes))
}

fn next_run(cursor: Cursor, bytes: &[u8]) -> Answer {
    ours::run(calls::slices_next(ours::cursor(cursor), bytes))
}

fn next_flag(cursor: Cursor, bytes: &[u8]) -> Answer {
    ours::step(calls::iter_next(ours::cursor(cursor), bytes))
}

fn next_position(cursor: Cursor, bytes: &[u8]) -> Answer {
    ours::step(calls::true_idx_next(ours::cursor(cursor), bytes))
}

/// The entries before and after those lent to the library.
const AROUND: u32 = 0xEEEE_EEEE;

/// Returns the whole entries of an output.
fn entries(out: &[u8]) -> Vec<u32> {
    out.chunks_exact(4).map(|entry| u32::from_le_bytes(entry.try_into().expect("four bytes"))).collect()
}

/// Writes entries at the start of an output.
fn put(out: &mut [u8], entries: &[u32]) {
    out.chunks_exact_mut(4).zip(entries).for_each(|(bytes, entry)| bytes.copy_from_slice(&entry.to_le_bytes()));
}

fn next_positions(r: &Request, out: &mut [u8]) -> Answer {
    let mut room = [&[AROUND; 2], &entries(out)[..], &[AROUND; 2]].concat();
    let end = room.len() - 2;
    let answer = ours::taken(calls::true_idx_next_chunk(ours::cursor(r.cursor()), r.bytes(), &mut room[2..end]));
    assert!(room[..2] == [AROUND; 2] && room[end..] == [AROUND; 2], "an entry outside of the output was written");
    put(out, &room[2..end]);
    answer
}

fn model_positions(r: &Request, out: &mut [u8]) -> Answer {
    let mut room = entries(out);
    let answer = cursors::true_idx_next_chunk(r.cursor(), r.bytes(), &mut room);
    put(out, &room);
    answer
}

fn their_words(r: &Request, _: &mut Met, visit: Visit) {
    BitChunks::<u64>::new(r.bytes(), r.span().start, r.span().length).for_each(|word| visit(&[word]));
}

fn their_exact_words(r: &Request, _: &mut Met, visit: Visit) {
    BitChunksExact::<u64>::new(r.bytes(), r.span().length).for_each(|word| visit(&[word]));
}

fn their_runs(r: &Request, _: &mut Met, visit: Visit) {
    SlicesIterator::new(&bitmap(r.lent(0))).for_each(|(start, length)| visit(&[start as u64, length as u64]));
}

fn their_flags(r: &Request, _: &mut Met, visit: Visit) {
    BitmapIter::new(r.bytes(), r.span().start, r.span().length).for_each(|flag| visit(&[flag.into()]));
}

fn their_positions(r: &Request, _: &mut Met, visit: Visit) {
    let lent = r.optional(0).map(bitmap);
    let positions = TrueIdxIter::new(r.n, lent.as_ref());
    let remaining = positions.size_hint().0;
    let mut many = 0;
    for position in positions {
        visit(&[position as u64]);
        many += 1;
    }
    assert_eq!(many, remaining, "the original's remaining positions");
}

fn new_cursors() -> [Call; 5] {
    [
        Call {
            name: "chunks_new",
            shape: Shape::SPAN,
            ours: |r, _| ours::new_cursor(calls::chunks_new(r.bytes(), r.span().start, r.span().length)),
            model: |r, _| spans::chunks_new(r.span()),
            theirs: Theirs::Cursor(next_chunk, their_words),
        },
        Call {
            name: "chunks_new_exact",
            shape: Shape::SPAN,
            ours: |r, _| ours::new_cursor(calls::chunks_new_exact(r.bytes(), r.span().length)),
            model: |r, _| spans::chunks_new(model::Span { start: 0, ..r.span() }),
            theirs: Theirs::Cursor(next_chunk, their_exact_words),
        },
        Call {
            name: "slices_new",
            shape: Shape::masks(1),
            ours: |r, _| ours::new_cursor(calls::slices_new(ours::mask(r.pieces[0].mask), r.bytes())),
            model: |r, _| cursors::slices_new(r.lent(0)),
            theirs: Theirs::Cursor(next_run, their_runs),
        },
        Call {
            name: "iter_new",
            shape: Shape::SPAN,
            ours: |r, _| ours::new_cursor(calls::iter_new(r.bytes(), r.span().start, r.span().length)),
            model: |r, _| cursors::iter_new(r.span()),
            theirs: Theirs::Cursor(next_flag, their_flags),
        },
        Call {
            name: "true_idx_new",
            shape: Shape::masks(1).args(Args::SameLength).optional(1),
            ours: |r, _| ours::new_cursor(calls::true_idx_new(r.n, r.present[0], ours::mask(r.pieces[0].mask), r.bytes())),
            model: |r, _| cursors::true_idx_new(r.n, r.optional(0)),
            theirs: Theirs::Cursor(next_position, their_positions),
        },
    ]
}

/// Moves the original's cursor over flags to the place and takes one more answer; its new place follows from what it has left.
fn their_iter(r: &Request, answer: impl FnOnce(&mut BitmapIter) -> Option<usize>) -> Option<Outcome> {
    let cursor = r.cursor();
    let mut iter = BitmapIter::new(r.bytes(), cursor.start, cursor.length);
    if cursor.place > 0 {
        iter.nth(cursor.place - 1);
    }
    let values = answer(&mut iter);
    let moved = Cursor { place: cursor.length - iter.num_remaining(), ..cursor };
    Some(Outcome::values(values).record(State::Cursor(moved)))
}

/// Returns the original's mask of the flags that start at the place.
fn rest(r: &Request) -> Bitmap {
    let cursor = r.cursor();
    let mask = Mask { start: cursor.start + cursor.place, length: cursor.length - cursor.place, zeros: None, serial: 0 };
    bitmap(Lent { mask, bytes: r.bytes() })
}

fn their_position(r: &Request, _: &mut Met) -> Option<Outcome> {
    let left = r.cursor().length - r.place;
    let found = if r.masked { TrueIdxIter::new(left, Some(&rest(r))).next() } else { TrueIdxIter::new(left, None).next() };
    Some(Outcome::values(found.map(|position| r.place + position)))
}

/// Returns the original's next positions, at most as many as the output has entries. The place is one past the last of them; the length
/// if fewer are left than entries; unchanged if there is no entry.
fn their_chunk(r: &Request, _: &mut Met) -> Option<Outcome> {
    let cursor = r.cursor();
    let (left, room) = (cursor.length - r.place, r.out.len() / 4);
    let rest = r.masked.then(|| rest(r));
    let mut positions = TrueIdxIter::new(left, rest.as_ref());
    let (mut written, mut place) = (Vec::new(), cursor.place);
    for _ in 0..room {
        let Some(position) = positions.next() else {
            place = cursor.length;
            break;
        };
        written.push((cursor.place + position) as u32);
        place = cursor.place + position + 1;
    }
    let bytes = written.iter().flat_map(|position| position.to_le_bytes()).collect();
    let outcome = Outcome::values([written.len()]).record(State::Cursor(Cursor { place, ..cursor }));
    Some(Outcome { written: Some(bytes), ..outcome })
}

fn steps() -> [Call; 7] {
    [
        Call {
            name: "slices_next",
            shape: Shape::CURSOR,
            ours: |r, _| next_run(r.cursor(), r.bytes()),
            model: |r, _| cursors::slices_next(r.cursor(), r.bytes()),
            theirs: Theirs::Answer(|r, _| {
                let run = SlicesIterator::new(&rest(r)).next();
                Some(Outcome::values(run.into_iter().flat_map(|(start, length)| [r.place + start, length])))
            }),
        },
        Call {
            name: "iter_next",
            shape: Shape::CURSOR,
            ours: |r, _| next_flag(r.cursor(), r.bytes()),
            model: |r, _| cursors::iter_next(r.cursor(), r.bytes()),
            theirs: Theirs::Answer(|r, _| their_iter(r, |iter| iter.next().map(usize::from))),
        },
        Call {
            name: "iter_nth",
            shape: Shape::CURSOR.args(Args::Position),
            ours: |r, _| ours::step(calls::iter_nth(ours::cursor(r.cursor()), r.bytes(), r.n)),
            model: |r, _| cursors::iter_nth(r.cursor(), r.bytes(), r.n),
            theirs: Theirs::Answer(|r, _| their_iter(r, |iter| iter.nth(r.n).map(usize::from))),
        },
        Call {
            name: "take_leading_ones",
            shape: Shape::CURSOR,
            ours: |r, _| ours::taken(calls::take_leading_ones(ours::cursor(r.cursor()), r.bytes())),
            model: |r, _| cursors::take_leading(true, r.cursor(), r.bytes()),
            theirs: Theirs::Answer(|r, _| their_iter(r, |iter| Some(iter.take_leading_ones()))),
        },
        Call {
            name: "take_leading_zeros",
            shape: Shape::CURSOR,
            ours: |r, _| ours::taken(calls::take_leading_zeros(ours::cursor(r.cursor()), r.bytes())),
            model: |r, _| cursors::take_leading(false, r.cursor(), r.bytes()),
            theirs: Theirs::Answer(|r, _| their_iter(r, |iter| Some(iter.take_leading_zeros()))),
        },
        Call {
            name: "true_idx_next",
            shape: Shape::CURSOR.maskless(),
            ours: |r, _| next_position(r.cursor(), r.bytes()),
            model: |r, _| cursors::true_idx_next(r.cursor(), r.bytes()),
            theirs: Theirs::Answer(their_position),
        },
        Call {
            name: "true_idx_next_chunk",
            shape: Shape::CURSOR.maskless().writes_entries(),
            ours: next_positions,
            model: model_positions,
            theirs: Theirs::Answer(their_chunk),
        },
    ]
}
