//! The calls that make a mask, cut it, count it and compare it. A public function without a comment models the call of its name.

use crate::{Answer, Checks, Lent, Mask, Span, State, write_frozen, zeros};

pub fn new() -> Answer {
    Answer::record(State::Mask(Mask { zeros: Some(0), ..Mask::default() }))
}

pub fn new_zeroed(length: usize, out: &mut [u8]) -> Answer {
    let many = length as u128;
    Checks::default().limited(&[many]).holds(out, many).answer(State::None, || {
        write_frozen(&vec![false; length], out);
        Answer::record(State::Mask(Mask { start: 0, length, zeros: Some(length), serial: 0 }))
    })
}

pub fn try_new(span: Span) -> Answer {
    let zeros = if span.length == 0 { Some(0) } else { None };
    let mask = Mask { start: span.start, length: span.length, zeros, serial: 0 };
    Checks::default().span(span).answer(State::None, || Answer::record(State::Mask(mask)))
}

/// Returns whether a slice of `length` flags counts the zeros again: the known count is neither 0 nor the old length, and nearly all of
/// the mask is kept.
fn recounts(mask: Mask, length: usize) -> bool {
    let mixed = mask.zeros.is_some_and(|zeros| zeros != 0 && zeros != mask.length);
    mixed && length + (mask.length / 5).max(32) >= mask.length
}

/// Returns the mask of the flags that start at `offset`; its zero count is known if it is 0, all, or counted again.
pub fn slice(lent: Lent, offset: usize, length: usize) -> Answer {
    let mask = lent.mask;
    let (from, many) = (offset as u128, length as u128);
    let start = mask.start as u128 + from;
    let mut checks = Checks::default().mask(lent).limited(&[from, many, start]).check(6, from + many <= mask.length as u128);
    let mut zeros_kept = None;
    if checks.passed() {
        zeros_kept = match mask.zeros {
            Some(0) => Some(0),
            Some(known) if known == mask.length => Some(length),
            Some(known) if recounts(mask, length) => {
                let flags = lent.flags();
                let cut = zeros(&flags[..offset]) + zeros(&flags[offset + length..]);
                checks = checks.check(7, known >= cut && known - cut <= length);
                known.checked_sub(cut)
            }
            _ => None,
        };
    }
    checks.answer(State::Mask(mask), || {
        let whole = offset == 0 && length == mask.length;
        let cut = Mask { start: mask.start + offset, length, zeros: zeros_kept, serial: mask.serial };
        Answer::record(State::Mask(if whole { mask } else { cut }))
    })
}

/// Returns the known zero count of a mask, else counts its zeros.
pub fn zero_count(lent: Lent) -> usize {
    lent.mask.zeros.unwrap_or_else(|| zeros(&lent.flags()))
}

pub fn unset_bits(lent: Lent) -> Answer {
    Checks::default().mask(lent).answer(State::Mask(lent.mask), || {
        let zeros = zero_count(lent);
        Answer::given([zeros], State::Mask(Mask { zeros: Some(zeros), ..lent.mask }))
    })
}

pub fn eq(lhs: Lent, rhs: Lent) -> Answer {
    let checks = Checks::default().mask(lhs).mask(rhs);
    checks.answer(State::None, || Answer::values([usize::from(lhs.flags() == rhs.flags())]))
}

pub fn num_edges(lent: Lent) -> Answer {
    Checks::default().mask(lent).answer(State::None, || Answer::values([lent.flags().windows(2).filter(|pair| pair[0] != pair[1]).count()]))
}

pub fn num_intersections_with(lhs: Lent, rhs: Lent) -> Answer {
    let checks = Checks::default().mask(lhs).mask(rhs).check(5, lhs.mask.length == rhs.mask.length);
    checks.answer(State::None, || Answer::values([lhs.flags().into_iter().zip(rhs.flags()).filter(|&(left, right)| left && right).count()]))
}
