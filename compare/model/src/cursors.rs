//! The cursors over runs, flags and positions. Flags before the place do not count. A public function without a comment models the call
//! of its name.

use crate::{Answer, Checks, Cursor, Lent, Span, State, run_at_front};

/// Returns a cursor at place 0.
fn at_front(start: usize, length: usize, masked: bool) -> Answer {
    Answer::record(State::Cursor(Cursor { start, length, place: 0, masked }))
}

/// Makes a step: `find` takes the flags that start at the place, and returns the values of the answer and how far the cursor moves. If
/// it finds nothing, the cursor moves to the length.
fn step(cursor: Cursor, bytes: &[u8], find: impl FnOnce(Vec<bool>) -> Option<(Vec<usize>, usize)>) -> Answer {
    Checks::default().cursor(cursor, bytes).answer(State::Cursor(cursor), || {
        let left = cursor.length - cursor.place;
        let flags = match cursor.masked {
            true => Span { bytes, start: cursor.start + cursor.place, length: left }.flags(),
            false => vec![true; left],
        };
        let (values, moved) = find(flags).unwrap_or((Vec::new(), left));
        Answer::given(values, State::Cursor(Cursor { place: cursor.place + moved, ..cursor }))
    })
}

pub fn slices_new(lent: Lent) -> Answer {
    Checks::default().mask(lent).answer(State::None, || at_front(lent.mask.start, lent.mask.length, true))
}

/// Returns the next maximal run of ones, its start and length.
pub fn slices_next(cursor: Cursor, bytes: &[u8]) -> Answer {
    step(cursor, bytes, |flags| {
        let gap = run_at_front(&flags, false);
        let run = run_at_front(&flags[gap..], true);
        (run > 0).then(|| (vec![cursor.place + gap, run], gap + run))
    })
}

/// Returns a cursor over flags; if the length is 0, one of all zeros, before any check.
pub fn iter_new(span: Span) -> Answer {
    if span.length == 0 {
        return at_front(0, 0, true);
    }
    Checks::default().span(span).answer(State::None, || at_front(span.start, span.length, true))
}

/// Returns the flag n places after the next one.
pub fn iter_nth(cursor: Cursor, bytes: &[u8], n: usize) -> Answer {
    step(cursor, bytes, |flags| flags.get(n).map(|&flag| (vec![usize::from(flag)], n + 1)))
}

pub fn iter_next(cursor: Cursor, bytes: &[u8]) -> Answer {
    iter_nth(cursor, bytes, 0)
}

/// Counts the next flags that equal `flag` in a row and moves the cursor past them.
pub fn take_leading(flag: bool, cursor: Cursor, bytes: &[u8]) -> Answer {
    step(cursor, bytes, |flags| {
        let run = run_at_front(&flags, flag);
        Some((vec![run], run))
    })
}

/// Returns a cursor over the positions of ones; with no mask over every position below the length.
pub fn true_idx_new(length: usize, mask: Option<Lent>) -> Answer {
    let checks = Checks::default().limited(&[length as u128]);
    match mask {
        None => checks.answer(State::None, || at_front(0, length, false)),
        Some(lent) => {
            checks.mask(lent).check(5, length == lent.mask.length).answer(State::None, || at_front(lent.mask.start, length, true))
        }
    }
}

/// Returns the next position of a one; with no mask the next position.
pub fn true_idx_next(cursor: Cursor, bytes: &[u8]) -> Answer {
    step(cursor, bytes, |flags| {
        let gap = run_at_front(&flags, false);
        (gap < flags.len()).then(|| (vec![cursor.place + gap], gap + 1))
    })
}

/// Writes the next positions of ones, as many as there are and the output has entries, at the start of the output, and returns how many;
/// later entries stay. The cursor moves past the last of them; to the length if entries are left over; not at all if there are none.
pub fn true_idx_next_chunk(cursor: Cursor, bytes: &[u8], out: &mut [u32]) -> Answer {
    step(cursor, bytes, |flags| {
        let (mut written, mut passed) = (0, 0);
        while written < out.len() && passed < flags.len() {
            if flags[passed] {
                out[written] = (cursor.place + passed) as u32;
                written += 1;
            }
            passed += 1;
        }
        Some((vec![written], passed))
    })
}
