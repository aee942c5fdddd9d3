//! The examples and edges of the reference, compared with the model.

use model::combine::{Op, combine, select};
use model::spans::{Count, count, nth_set_bit_idx, nth_set_bit_idx_rev};
use model::{Answer, Builder, Cursor, LIMIT, Lent, Mask, Span, State, builder, cursors, mask};

/// A = 1,0,1,1,0,1.
const A: Span = Span { bytes: &[0x2D], start: 0, length: 6 };

fn lent(bytes: &[u8], length: usize) -> Lent<'_> {
    Lent { mask: Mask { start: 0, length, zeros: None, serial: 0 }, bytes }
}

/// Returns the builder that an append left.
fn appended(answer: Answer) -> Builder {
    let State::Builder(builder) = answer.state else { panic!("no builder") };
    assert_eq!(answer.refusal, 0);
    builder
}

/// Freezes a builder; returns the first byte and the zero count.
fn frozen(b: Builder, buf: &mut [u8]) -> (u8, Option<usize>) {
    let State::Mask(mask) = builder::freeze(b, buf).state else { panic!("no mask") };
    (buf[0], mask.zeros)
}

#[test]
fn appends_and_freezing() {
    let mut buf = [0xEE; 16];
    let b = appended(builder::extend_from_slice(Builder::default(), &mut buf, A));
    assert_eq!(frozen(b, &mut buf), (0x2D, Some(2)));
    assert_eq!(buf, [0x2D, 0, 0, 0, 0, 0, 0, 0, 0xEE, 0xEE, 0xEE, 0xEE, 0xEE, 0xEE, 0xEE, 0xEE]);

    let tail = Span { start: 2, length: 4, ..A };
    let b = appended(builder::extend_from_slice(Builder::default(), &mut buf, tail));
    assert_eq!(frozen(b, &mut buf), (0x0B, Some(1)));

    let b = appended(builder::extend_each_repeated_from_slice_unchecked(Builder::default(), &mut buf, tail, 2));
    assert_eq!(frozen(b, &mut buf).0, 0xCF);

    let b = appended(builder::extend_constant(Builder::default(), &mut buf, 60, true));
    let b = appended(builder::extend_constant(b, &mut buf, 5, true));
    assert_eq!(frozen(b, &mut buf).0, 0xFF);
    assert_eq!(buf, [0xFF, 0xFF, 0xFF, 0xFF, 0xFF, 0xFF, 0xFF, 0xFF, 1, 0, 0, 0, 0, 0, 0, 0]);

    let b = appended(builder::opt_gather_extend_from_slice(Builder::default(), &mut buf, A, &[5, 6, 0]));
    assert_eq!(frozen(b, &mut buf).0, 0x05);
    assert_eq!(builder::gather_extend_from_slice(Builder::default(), &mut buf, A, &[5, 6, 0]).refusal, 6);

    assert_eq!(builder::into_opt_validity(Builder::default(), &mut []), Answer::record(State::None));
    assert_eq!(builder::freeze(Builder::default(), &mut []), mask::new());
}

#[test]
fn runs_and_searches() {
    let mut cursor = Cursor { start: 0, length: 6, place: 0, masked: true };
    for run in [vec![0, 1], vec![2, 2], vec![5, 1], vec![]] {
        let answer = cursors::slices_next(cursor, A.bytes);
        assert_eq!(answer.values, run);
        let State::Cursor(next) = answer.state else { panic!("no cursor") };
        cursor = next;
    }
    assert_eq!(nth_set_bit_idx(A, 2, 0).values, [3]);
    assert_eq!(nth_set_bit_idx(A, 4, 0).values, []);
    assert_eq!(nth_set_bit_idx_rev(A, 1, 5).values, [2]);
    assert_eq!(nth_set_bit_idx_rev(A, 3, 900).values, [0]);
    assert_eq!(mask::num_edges(lent(A.bytes, 6)).values, [4]);
}

#[test]
fn combinations() {
    let mut out = [0xEE; 8];
    combine(Op::OrNot, lent(&[0b100], 3), lent(&[0b001], 3), &mut out);
    assert_eq!(out[0], 0x06);
    select(lent(&[0b0101], 4), lent(&[0b0011], 4), lent(&[0b1110], 4), &mut out);
    assert_eq!(out[0], 0x0B);
}

#[test]
fn slices_count_again() {
    let bytes = [0x55; 25];
    for (length, kept, unknown) in [(100, 68, 67), (200, 160, 159)] {
        let known = Lent { mask: Mask { zeros: Some(length / 2), ..lent(&bytes, length).mask }, bytes: &bytes };
        let zeros = |kept| match mask::slice(known, 0, kept).state {
            State::Mask(mask) => mask.zeros,
            _ => panic!("no mask"),
        };
        assert_eq!((zeros(kept), zeros(unknown)), (Some(kept / 2), None));
    }
}

#[test]
fn edges() {
    let bytes = vec![0; LIMIT / 8 + 1];
    let zeros = |bytes, start, length, address| count(Count::Zeros, Span { bytes, start, length }, address).refusal;
    assert_eq!((zeros(&bytes, 0, LIMIT, 0), zeros(&bytes, 0, LIMIT + 1, 0)), (0, 1));
    assert_eq!((zeros(&[0], 2, 6, 0), zeros(&[0], 2, 7, 0)), (0, 2));
    assert_eq!((zeros(&[0], 0, 1, 7), zeros(&[0], 0, 1, 8)), (0, 8));
    assert_eq!((mask::new_zeroed(65, &mut [0; 16]).refusal, mask::new_zeroed(65, &mut [0; 15]).refusal), (0, 9));
}
